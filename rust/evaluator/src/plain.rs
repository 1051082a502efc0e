//! The plain machine, document 01's word for the machine that is fed the lines
//! alone and sees no memory: it holds a tree for each channel.

use crate::limits::LARGEST_SIZE;
use crate::line;
use crate::operators::{self, Scalar};
use crate::readings;
use crate::syntax::{Call, Case, Construction, Expression, File, Fit, If, Let, Operation};
use crate::value::{construction_size, fields_within, Tree};
use std::rc::Rc;

/// The tree of an initial value, which uses `10`, `11`, `19` and `1B` only.
pub fn initial_tree(file: &File, initial: &Expression) -> Rc<Tree> {
    let closed = Derivation {
        file,
        current: &[],
        previous: &[],
    };
    let tree = closed.of(&mut Vec::new(), initial);
    tree.expect("an accepted file's initial values are within their sizes")
}

/// What the plain machine says of a line.
#[derive(Clone, Copy, Debug, PartialEq, Eq)]
pub enum Step {
    /// An allowed line, taken.
    Taken,
    /// Any other line, which changes nothing.
    NotAllowed,
    /// The rules derive no value: the premise of refusal 23 fails. It never
    /// happens to an accepted file.
    NoValue,
}

pub struct PlainMachine<'a> {
    file: &'a File,
    channels: Vec<Rc<Tree>>,
}

impl<'a> PlainMachine<'a> {
    /// Holds the initial values of a file that the checker accepts.
    pub fn new(file: &'a File) -> PlainMachine<'a> {
        let initial = |channel| initial_tree(file, file.initial(channel));
        PlainMachine {
            file,
            channels: (0..file.channel_count()).map(initial).collect(),
        }
    }

    /// Holds given values, one a channel.
    pub fn holding(file: &'a File, channels: Vec<Rc<Tree>>) -> PlainMachine<'a> {
        PlainMachine { file, channels }
    }

    pub fn channels(&self) -> &[Rc<Tree>] {
        &self.channels
    }

    pub fn step(&mut self, line: &[u8]) -> Step {
        let Some(inputs) = line::read(self.file, line) else {
            return Step::NotAllowed;
        };
        match self.derive(inputs) {
            Some(channels) => {
                self.channels = channels;
                Step::Taken
            }
            None => Step::NoValue,
        }
    }

    /// `13` reads the trees as they then stand, `14` those from before. Nodes
    /// come in the iteration's order.
    fn derive(&self, inputs: Vec<Rc<Tree>>) -> Option<Vec<Rc<Tree>>> {
        let mut current = inputs;
        current.extend_from_slice(&self.channels[current.len()..]);
        for at in readings::order(self.file) {
            let node = &self.file.nodes[at];
            let derivation = Derivation {
                file: self.file,
                current: &current,
                previous: &self.channels,
            };
            let tree = derivation.of(&mut Vec::new(), &node.update)?;
            let fits = tree.size() <= node.declared.size();
            current[self.file.node_channel(at)] = fits.then_some(tree)?;
        }
        Some(current)
    }
}

/// The evaluation rules with memory without limit.
struct Derivation<'a> {
    file: &'a File,
    current: &'a [Rc<Tree>],
    previous: &'a [Rc<Tree>],
}

type Environment = Vec<Rc<Tree>>;
type Derived = Option<Rc<Tree>>;

impl Derivation<'_> {
    fn of(&self, environment: &mut Environment, expression: &Expression) -> Derived {
        match expression {
            Expression::Bool(value) => Some(Rc::new(Tree::Bool(*value))),
            Expression::Int(value) => Some(Rc::new(Tree::Int(*value))),
            Expression::Variable(at) => Some(environment[*at].clone()),
            Expression::Channel(at) => Some(self.current[*at].clone()),
            Expression::Previous(at) => Some(self.previous[*at].clone()),
            Expression::Let(parts) => self.of_let(environment, parts),
            Expression::If(parts) => self.of_if(environment, parts),
            Expression::Operation(parts) => self.of_operation(environment, parts),
            Expression::Call(parts) => self.of_call(environment, parts),
            Expression::Construction(parts) => self.of_construction(environment, parts),
            Expression::Case(parts) => self.of_case(environment, parts),
            Expression::Adjust(parts) => self.of(environment, &parts.subject),
            Expression::Fit(parts) => self.of_fit(environment, parts),
        }
    }

    fn of_several(
        &self,
        environment: &mut Environment,
        parts: &[Expression],
    ) -> Option<Environment> {
        parts
            .iter()
            .map(|part| self.of(environment, part))
            .collect()
    }

    fn under(
        &self,
        environment: &mut Environment,
        bound: &[Rc<Tree>],
        body: &Expression,
    ) -> Derived {
        let outer = environment.len();
        environment.extend_from_slice(bound);
        let value = self.of(environment, body);
        environment.truncate(outer);
        value
    }

    fn of_let(&self, environment: &mut Environment, parts: &Let) -> Derived {
        let bound = self.of(environment, &parts.bound)?;
        self.under(environment, &[bound], &parts.body)
    }

    fn of_if(&self, environment: &mut Environment, parts: &If) -> Derived {
        match scalar(&*self.of(environment, &parts.condition)?) != 0 {
            true => self.of(environment, &parts.then_arm),
            false => self.of(environment, &parts.else_arm),
        }
    }

    fn of_operation(&self, environment: &mut Environment, parts: &Operation) -> Derived {
        let left = scalar(&*self.of(environment, &parts.left)?);
        if let Some(value) = operators::decided(parts.operator, left) {
            return Some(Rc::new(Tree::Bool(value)));
        }
        let right = scalar(&*self.of(environment, &parts.right)?);
        let value = operators::apply(parts.operator, left, right);
        Some(Rc::new(match value {
            Scalar::Bool(value) => Tree::Bool(value),
            Scalar::Int(value) => Tree::Int(value),
        }))
    }

    fn of_call(&self, environment: &mut Environment, parts: &Call) -> Derived {
        let mut arguments = self.of_several(environment, &parts.arguments)?;
        self.of(&mut arguments, &self.file.functions[parts.function].body)
    }

    /// The premise of refusal 23 belongs to the rules, so it is tested here.
    fn of_construction(&self, environment: &mut Environment, parts: &Construction) -> Derived {
        let fields = self.of_several(environment, &parts.fields)?;
        let known = self.file.constructor(parts.type_index, parts.constructor);
        let sizes: Vec<usize> = fields.iter().map(|field| field.size()).collect();
        let size = construction_size(known, &sizes);
        let allowed = size <= LARGEST_SIZE && fields_within(known, &sizes);
        let tree = Tree::Construction {
            type_index: parts.type_index,
            constructor: parts.constructor,
            size,
            fields,
        };
        allowed.then(|| Rc::new(tree))
    }

    fn of_case(&self, environment: &mut Environment, parts: &Case) -> Derived {
        match &*self.of(environment, &parts.scrutinee)? {
            Tree::Construction {
                constructor,
                fields,
                ..
            } => self.under(environment, fields, &parts.branches[*constructor]),
            Tree::Bool(_) | Tree::Int(_) => None,
        }
    }

    fn of_fit(&self, environment: &mut Environment, parts: &Fit) -> Derived {
        let subject = self.of(environment, &parts.subject)?;
        match subject.size() <= parts.size {
            true => self.under(environment, &[subject], &parts.fits),
            false => self.of(environment, &parts.otherwise),
        }
    }
}

/// An Int, or a Bool as 0 or 1.
fn scalar(tree: &Tree) -> i32 {
    match tree {
        Tree::Bool(value) => i32::from(*value),
        Tree::Int(value) => *value,
        Tree::Construction { .. } => 0,
    }
}
