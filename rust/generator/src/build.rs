//! Short constructors for syntax written by hand.

use evaluator::syntax::{
    Adjust, Call, Case, Condition, Construction, Constructor, Expression, Field, Fit, If, Let,
    Operation, Operator, Relation, Size, SizedType, TypeDefinition, WrittenType,
};

pub fn definition(constructors: &[&[Field]]) -> TypeDefinition {
    let constructor = |fields: &&[Field]| Constructor {
        fields: fields.to_vec(),
    };
    TypeDefinition {
        constructors: constructors.iter().map(constructor).collect(),
    }
}

pub fn constant(size: u8) -> Size {
    Size::Constant(size)
}

pub fn size_variable(at: usize) -> Size {
    Size::Variable(at)
}

pub fn sum(left: Size, right: Size) -> Size {
    Size::Sum(Box::new(left), Box::new(right))
}

pub fn difference(left: Size, right: Size) -> Size {
    Size::Difference(Box::new(left), Box::new(right))
}

pub fn less(left: Size, right: Size) -> Condition {
    Condition {
        relation: Relation::Less,
        left,
        right,
    }
}

pub fn written(type_index: usize, size: Size) -> WrittenType {
    WrittenType::Named { type_index, size }
}

pub fn declared(type_index: usize, size: usize) -> SizedType {
    SizedType::Named { type_index, size }
}

pub fn variable(at: usize) -> Expression {
    Expression::Variable(at)
}

pub fn int(value: i32) -> Expression {
    Expression::Int(value)
}

pub fn let_in(bound: Expression, body: Expression) -> Expression {
    Expression::Let(Box::new(Let { bound, body }))
}

pub fn if_then(condition: Expression, then_arm: Expression, else_arm: Expression) -> Expression {
    Expression::If(Box::new(If {
        condition,
        then_arm,
        else_arm,
    }))
}

pub fn operation(operator: Operator, left: Expression, right: Expression) -> Expression {
    Expression::Operation(Box::new(Operation {
        operator,
        left,
        right,
    }))
}

pub fn call(function: usize, arguments: Vec<Expression>) -> Expression {
    Expression::Call(Call {
        function,
        arguments,
    })
}

pub fn construction(type_index: usize, constructor: usize, fields: Vec<Expression>) -> Expression {
    Expression::Construction(Construction {
        type_index,
        constructor,
        fields,
    })
}

pub fn case(
    type_index: usize,
    scrutinee: Expression,
    return_type: WrittenType,
    branches: Vec<Expression>,
) -> Expression {
    Expression::Case(Box::new(Case {
        type_index,
        scrutinee,
        return_type,
        branches,
    }))
}

pub fn adjust(size: Size, subject: Expression) -> Expression {
    Expression::Adjust(Box::new(Adjust { size, subject }))
}

pub fn fit(
    size: usize,
    subject: Expression,
    fits: Expression,
    otherwise: Expression,
) -> Expression {
    Expression::Fit(Box::new(Fit {
        size,
        subject,
        fits,
        otherwise,
    }))
}
