//! Plain types, sizes ignored (refusal 9). Figure 5 of the paper without its
//! size constraints.

use crate::answer::{Fault, Refusal};
use crate::syntax::{
    Call, Case, Construction, Expression, Field, File, Fit, If, Let, Operation, PlainType,
};

/// The first frame in file order with any disagreement.
pub fn check(file: &File) -> Result<(), Fault> {
    let functions = (0..file.functions.len()).map(|at| {
        let sound = function_agrees(file, at);
        (file.function_frame(at), sound)
    });
    let channels = (0..file.channel_count()).map(|at| {
        let sound = channel_agrees(file, at);
        (file.channel_frame(at), sound)
    });
    let mut frames = functions.chain(channels);
    match frames.find(|(_, sound)| !sound) {
        Some((frame, _)) => Err(Refusal::PlainTypes.in_frame(frame)),
        None => Ok(()),
    }
}

fn function_agrees(file: &File, at: usize) -> bool {
    let function = &file.functions[at];
    let mut typing = Typing {
        file,
        variables: function.parameters.clone(),
    };
    typing.of(&function.body) == Some(function.result.plain())
}

fn channel_agrees(file: &File, channel: usize) -> bool {
    let declared = Some(file.declared(channel).plain());
    let initial = file.initial(channel);
    if !is_initial_form(initial) || Typing::closed(file).of(initial) != declared {
        return false;
    }
    match file.channel_node(channel) {
        Some(node) => Typing::closed(file).of(&file.nodes[node].update) == declared,
        None => true,
    }
}

/// Initial values use `10`, `11`, `19` and `1B` only.
fn is_initial_form(expression: &Expression) -> bool {
    match expression {
        Expression::Bool(_) | Expression::Int(_) => true,
        Expression::Construction(parts) => parts.fields.iter().all(is_initial_form),
        Expression::Adjust(parts) => is_initial_form(&parts.subject),
        _ => false,
    }
}

struct Typing<'a> {
    file: &'a File,
    variables: Vec<PlainType>,
}

impl<'a> Typing<'a> {
    fn closed(file: &'a File) -> Typing<'a> {
        Typing {
            file,
            variables: Vec::new(),
        }
    }

    /// The plain type of an expression, none where its parts disagree.
    fn of(&mut self, expression: &Expression) -> Option<PlainType> {
        match expression {
            Expression::Bool(_) => Some(PlainType::Bool),
            Expression::Int(_) => Some(PlainType::Int),
            Expression::Variable(variable) => Some(self.variables[*variable]),
            Expression::Channel(channel) | Expression::Previous(channel) => {
                Some(self.file.declared(*channel).plain())
            }
            Expression::Let(parts) => self.of_let(parts),
            Expression::If(parts) => self.of_if(parts),
            Expression::Operation(parts) => self.of_operation(parts),
            Expression::Call(parts) => self.of_call(parts),
            Expression::Construction(parts) => self.of_construction(parts),
            Expression::Case(parts) => self.of_case(parts),
            Expression::Adjust(parts) => self.of_named(&parts.subject),
            Expression::Fit(parts) => self.of_fit(parts),
        }
    }

    fn under(&mut self, bound: &[PlainType], body: &Expression) -> Option<PlainType> {
        let outer = self.variables.len();
        self.variables.extend_from_slice(bound);
        let found = self.of(body);
        self.variables.truncate(outer);
        found
    }

    fn require(&mut self, expression: &Expression, wanted: PlainType) -> Option<()> {
        (self.of(expression)? == wanted).then_some(())
    }

    fn require_all(&mut self, expressions: &[Expression], wanted: &[PlainType]) -> Option<()> {
        let mut pairs = expressions.iter().zip(wanted);
        pairs.try_for_each(|(expression, wanted)| self.require(expression, *wanted))
    }

    fn of_named(&mut self, expression: &Expression) -> Option<PlainType> {
        match self.of(expression)? {
            PlainType::Named(type_index) => Some(PlainType::Named(type_index)),
            PlainType::Bool | PlainType::Int => None,
        }
    }

    fn of_let(&mut self, parts: &Let) -> Option<PlainType> {
        let bound = self.of(&parts.bound)?;
        self.under(&[bound], &parts.body)
    }

    fn of_if(&mut self, parts: &If) -> Option<PlainType> {
        self.require(&parts.condition, PlainType::Bool)?;
        let found = self.of(&parts.then_arm)?;
        self.require(&parts.else_arm, found)?;
        Some(found)
    }

    fn of_operation(&mut self, parts: &Operation) -> Option<PlainType> {
        let operands = parts.operator.operands();
        self.require(&parts.left, operands)?;
        self.require(&parts.right, operands)?;
        match parts.operator.gives_int() {
            true => Some(PlainType::Int),
            false => Some(PlainType::Bool),
        }
    }

    fn of_call(&mut self, parts: &Call) -> Option<PlainType> {
        let called = &self.file.functions[parts.function];
        self.require_all(&parts.arguments, &called.parameters)?;
        Some(called.result.plain())
    }

    fn of_construction(&mut self, parts: &Construction) -> Option<PlainType> {
        let wanted = self.field_types(parts.type_index, parts.constructor);
        self.require_all(&parts.fields, &wanted)?;
        Some(PlainType::Named(parts.type_index))
    }

    fn of_case(&mut self, parts: &Case) -> Option<PlainType> {
        self.require(&parts.scrutinee, PlainType::Named(parts.type_index))?;
        let returned = parts.return_type.plain();
        for (constructor, branch) in parts.branches.iter().enumerate() {
            let fields = self.field_types(parts.type_index, constructor);
            if self.under(&fields, branch)? != returned {
                return None;
            }
        }
        Some(returned)
    }

    fn of_fit(&mut self, parts: &Fit) -> Option<PlainType> {
        let subject = self.of_named(&parts.subject)?;
        let found = self.under(&[subject], &parts.fits)?;
        self.require(&parts.otherwise, found)?;
        Some(found)
    }

    fn field_types(&self, type_index: usize, constructor: usize) -> Vec<PlainType> {
        let known = self.file.constructor(type_index, constructor);
        let plain = |field: &Field| field.plain(type_index);
        known.fields.iter().map(plain).collect()
    }
}
