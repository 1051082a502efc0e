//! Expressions, sizes and written types.
//!
//! Nesting and scope are judged at the first byte of the expression or size
//! that stands there: 4 where it is missing, 5 where it is no code, then 7.

use crate::answer::Refusal;
use crate::codes::{expression, operator, size, types};
use crate::cursor::Cursor;
use crate::limits::{LARGEST_SIZE, LEAST_SIZE, NESTING, SIZE_VARIABLES, VARIABLES};
use crate::syntax::{
    Adjust, Call, Case, Construction, Constructor, Expression, Fit, If, Let, Operation, Operator,
    PlainType, Size, TypeDefinition, WrittenType,
};

/// What the file offers to an expression at its place.
pub struct Names<'a> {
    pub types: &'a [TypeDefinition],
    /// The parameter counts of the functions it may call.
    pub arities: &'a [usize],
    /// How many channels `13` and `14` may name.
    pub channels: usize,
}

/// How much is bound at a place, and the level of the part that stands there.
#[derive(Clone, Copy)]
pub struct Scope {
    variables: usize,
    pub size_variables: usize,
    level: usize,
}

impl Scope {
    pub const EMPTY: Scope = Scope {
        variables: 0,
        size_variables: 0,
        level: 1,
    };

    pub fn of_parameters(parameters: &[PlainType]) -> Scope {
        let named = |parameter: &&PlainType| matches!(parameter, PlainType::Named(_));
        Scope {
            variables: parameters.len(),
            size_variables: parameters.iter().filter(named).count(),
            level: 1,
        }
    }

    fn inner(self) -> Scope {
        Scope {
            level: self.level + 1,
            ..self
        }
    }

    fn with_variable(self) -> Scope {
        Scope {
            variables: self.variables + 1,
            ..self
        }
    }

    /// A branch: every field is a variable, own-type fields bring sizes.
    fn with_fields(self, constructor: &Constructor) -> Scope {
        Scope {
            variables: self.variables + constructor.fields.len(),
            size_variables: self.size_variables + constructor.own_fields(),
            ..self
        }
    }

    /// Levels start anew in each written size.
    fn of_size(self) -> Scope {
        Scope { level: 1, ..self }
    }

    fn within_limits(self) -> Result<(), Refusal> {
        let fits = self.level <= NESTING
            && self.variables <= VARIABLES
            && self.size_variables <= SIZE_VARIABLES;
        match fits {
            true => Ok(()),
            false => Err(Refusal::Limit),
        }
    }
}

type Read<T> = Result<T, Refusal>;

impl Names<'_> {
    pub fn expression(&self, cursor: &mut Cursor, scope: Scope) -> Read<Expression> {
        let code = cursor.byte()?;
        if !(expression::BOOL..=expression::FIT).contains(&code) {
            return Err(Refusal::Code);
        }
        scope.within_limits()?;
        match code {
            expression::BOOL => Ok(Expression::Bool(cursor.bool()?)),
            expression::INT => Ok(Expression::Int(cursor.int()?)),
            expression::VARIABLE => Ok(Expression::Variable(cursor.index(scope.variables)?)),
            expression::CHANNEL => Ok(Expression::Channel(cursor.index(self.channels)?)),
            expression::PREVIOUS => Ok(Expression::Previous(cursor.index(self.channels)?)),
            expression::LET => self.let_in(cursor, scope.inner()),
            expression::IF => self.if_then(cursor, scope.inner()),
            expression::OPERATION => self.operation(cursor, scope.inner()),
            expression::CALL => self.call(cursor, scope.inner()),
            expression::CONSTRUCTION => self.construction(cursor, scope.inner()),
            expression::CASE => self.case(cursor, scope.inner()),
            expression::ADJUST => self.adjust(cursor, scope.inner()),
            _ => self.fit(cursor, scope.inner()),
        }
    }

    fn several(&self, cursor: &mut Cursor, count: usize, scope: Scope) -> Read<Vec<Expression>> {
        let mut parts = Vec::with_capacity(count);
        for _ in 0..count {
            parts.push(self.expression(cursor, scope)?);
        }
        Ok(parts)
    }

    fn let_in(&self, cursor: &mut Cursor, scope: Scope) -> Read<Expression> {
        Ok(Expression::Let(Box::new(Let {
            bound: self.expression(cursor, scope)?,
            body: self.expression(cursor, scope.with_variable())?,
        })))
    }

    fn if_then(&self, cursor: &mut Cursor, scope: Scope) -> Read<Expression> {
        Ok(Expression::If(Box::new(If {
            condition: self.expression(cursor, scope)?,
            then_arm: self.expression(cursor, scope)?,
            else_arm: self.expression(cursor, scope)?,
        })))
    }

    fn operation(&self, cursor: &mut Cursor, scope: Scope) -> Read<Expression> {
        Ok(Expression::Operation(Box::new(Operation {
            operator: operator(cursor)?,
            left: self.expression(cursor, scope)?,
            right: self.expression(cursor, scope)?,
        })))
    }

    fn call(&self, cursor: &mut Cursor, scope: Scope) -> Read<Expression> {
        let function = cursor.index(self.arities.len())?;
        let arguments = self.several(cursor, self.arities[function], scope)?;
        Ok(Expression::Call(Call {
            function,
            arguments,
        }))
    }

    fn construction(&self, cursor: &mut Cursor, scope: Scope) -> Read<Expression> {
        let type_index = cursor.index(self.types.len())?;
        let constructors = &self.types[type_index].constructors;
        let constructor = cursor.index(constructors.len())?;
        let count = constructors[constructor].fields.len();
        Ok(Expression::Construction(Construction {
            type_index,
            constructor,
            fields: self.several(cursor, count, scope)?,
        }))
    }

    fn case(&self, cursor: &mut Cursor, scope: Scope) -> Read<Expression> {
        let type_index = cursor.index(self.types.len())?;
        let scrutinee = self.expression(cursor, scope)?;
        let return_type = self.written_type(cursor, scope)?;
        let constructors = &self.types[type_index].constructors;
        let mut branches = Vec::with_capacity(constructors.len());
        for constructor in constructors {
            branches.push(self.expression(cursor, scope.with_fields(constructor))?);
        }
        Ok(Expression::Case(Box::new(Case {
            type_index,
            scrutinee,
            return_type,
            branches,
        })))
    }

    fn adjust(&self, cursor: &mut Cursor, scope: Scope) -> Read<Expression> {
        Ok(Expression::Adjust(Box::new(Adjust {
            size: self.size(cursor, scope)?,
            subject: self.expression(cursor, scope)?,
        })))
    }

    fn fit(&self, cursor: &mut Cursor, scope: Scope) -> Read<Expression> {
        Ok(Expression::Fit(Box::new(Fit {
            size: cursor.count(LEAST_SIZE, LARGEST_SIZE)?,
            subject: self.expression(cursor, scope)?,
            fits: self.expression(cursor, scope.with_variable())?,
            otherwise: self.expression(cursor, scope)?,
        })))
    }

    /// A result or return type.
    pub fn written_type(&self, cursor: &mut Cursor, scope: Scope) -> Read<WrittenType> {
        match cursor.byte()? {
            types::BOOL => Ok(WrittenType::Bool),
            types::INT => Ok(WrittenType::Int),
            types::NAMED => Ok(WrittenType::Named {
                type_index: cursor.index(self.types.len())?,
                size: self.size(cursor, scope)?,
            }),
            _ => Err(Refusal::Code),
        }
    }

    pub fn size(&self, cursor: &mut Cursor, scope: Scope) -> Read<Size> {
        size_part(cursor, scope.of_size())
    }
}

fn size_part(cursor: &mut Cursor, scope: Scope) -> Read<Size> {
    let code = cursor.byte()?;
    if !(size::CONSTANT..=size::DIFFERENCE).contains(&code) {
        return Err(Refusal::Code);
    }
    scope.within_limits()?;
    let inner = scope.inner();
    match code {
        size::CONSTANT => Ok(Size::Constant(cursor.byte()?)),
        size::VARIABLE => Ok(Size::Variable(cursor.index(scope.size_variables)?)),
        size::SUM => Ok(Size::Sum(
            Box::new(size_part(cursor, inner)?),
            Box::new(size_part(cursor, inner)?),
        )),
        _ => Ok(Size::Difference(
            Box::new(size_part(cursor, inner)?),
            Box::new(size_part(cursor, inner)?),
        )),
    }
}

fn operator(cursor: &mut Cursor) -> Read<Operator> {
    match cursor.byte()? {
        operator::ADD => Ok(Operator::Add),
        operator::SUBTRACT => Ok(Operator::Subtract),
        operator::MULTIPLY => Ok(Operator::Multiply),
        operator::EQUAL => Ok(Operator::Equal),
        operator::LESS => Ok(Operator::Less),
        operator::AT_MOST => Ok(Operator::AtMost),
        operator::AND => Ok(Operator::And),
        operator::OR => Ok(Operator::Or),
        _ => Err(Refusal::Code),
    }
}
