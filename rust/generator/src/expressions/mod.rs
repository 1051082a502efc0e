//! Random expressions of a wanted type and size.

mod calls;
mod constructions;
mod forms;

use crate::build::{adjust, construction};
use crate::linear::{at_most, Linear};
use crate::random::Random;
use crate::scope::{Formed, Scope};
use evaluator::syntax::{
    Condition, Constructor, Expression, Field, PlainType, SizedType, TypeDefinition, WrittenType,
};

/// A function without its body.
#[derive(Clone, Debug)]
pub struct Signature {
    pub parameters: Vec<PlainType>,
    pub result: WrittenType,
    pub conditions: Vec<Condition>,
    pub measure: Vec<usize>,
}

/// Composes expressions at one place of a file.
pub struct Composer<'a> {
    pub random: &'a mut Random,
    pub types: &'a [TypeDefinition],
    /// The functions that may be called, the one being composed last.
    pub signatures: &'a [Signature],
    /// The function being composed.
    pub own: Option<usize>,
    /// The declared types of the channels that may be named, and which of them
    /// `13` may name.
    pub channels: &'a [SizedType],
    pub current: &'a [usize],
    /// Whether sizes that do not agree are let through now and then.
    pub loose: bool,
    /// Expressions and self-calls still to be spent.
    pub budget: usize,
    pub self_calls: usize,
    /// The level below which only the simplest expressions stand.
    pub deepest: usize,
}

/// How often a random form is tried before the simplest one is taken.
const TRIES: usize = 5;

/// Something in scope that can be read.
type Source = (Expression, Formed);

impl Composer<'_> {
    pub fn expression(&mut self, scope: &Scope, wanted: &Formed, level: usize) -> Expression {
        if self.budget == 0 || level >= self.deepest {
            return self.simplest(scope, wanted);
        }
        self.budget -= 1;
        for _ in 0..TRIES {
            if let Some(composed) = self.any_form(scope, wanted, level) {
                return composed;
            }
        }
        self.simplest(scope, wanted)
    }

    fn any_form(&mut self, scope: &Scope, wanted: &Formed, level: usize) -> Option<Expression> {
        match self.random.below(20) {
            0..=2 => self.read(scope, wanted),
            3..=7 => self.own_form(scope, wanted, level),
            8 => self.let_in(scope, wanted, level),
            9 | 10 => self.if_then(scope, wanted, level),
            11 => self.any_case(scope, wanted, level),
            12 => self.fit(scope, wanted, level),
            _ => self.call(scope, wanted, level),
        }
    }

    /// A constant, or the smallest construction, adjusted.
    pub fn simplest(&mut self, scope: &Scope, wanted: &Formed) -> Expression {
        match wanted {
            Formed::Bool => Expression::Bool(self.random.one_in(2)),
            Formed::Int => Expression::Int(random_int(self.random)),
            Formed::Named(type_index, form) => {
                let constructor = self_free(&self.types[*type_index]);
                let fields = &self.types[*type_index].constructors[constructor].fields;
                let simplest = |field: &Field| {
                    let wanted = formed_field(*field, *type_index, &Linear::constant(1));
                    self.simplest(scope, &wanted)
                };
                let fields = fields.iter().map(simplest).collect();
                let made = construction(*type_index, constructor, fields);
                // Every wanted size is at least 1, shown or not.
                match scope.write(self.random, form) {
                    Some(size) if *form != Linear::constant(1) => adjust(size, made),
                    _ => made,
                }
            }
        }
    }

    /// An expression of size `found` made one of size `wanted`.
    fn adjusted(
        &mut self,
        scope: &Scope,
        subject: Expression,
        found: &Linear,
        wanted: &Linear,
    ) -> Option<Expression> {
        if found == wanted && !self.random.one_in(12) {
            return Some(subject);
        }
        let shown = self.shown(scope, found, wanted);
        let size = scope.write(self.random, wanted)?;
        shown.then(|| adjust(size, subject))
    }

    /// Whether `left` is known to be at most `right`, or let through.
    fn shown(&mut self, scope: &Scope, left: &Linear, right: &Linear) -> bool {
        at_most(left, right, &scope.ranges) || self.let_through()
    }

    fn let_through(&mut self) -> bool {
        self.loose && self.random.one_in(3)
    }

    fn sources(&self, scope: &Scope, plain: Option<PlainType>) -> Vec<Source> {
        let variables = scope.variables.iter().cloned().enumerate();
        let variables = variables.map(|(at, formed)| (Expression::Variable(at), formed));
        let declared = |at: usize| Formed::of_declared(self.channels[at]);
        let current = self.current.iter();
        let current = current.map(|at| (Expression::Channel(*at), declared(*at)));
        let previous = 0..self.channels.len();
        let previous = previous.map(|at| (Expression::Previous(at), declared(at)));
        let sources = variables.chain(current).chain(previous);
        let fitting = |(_, formed): &Source| match plain {
            Some(plain) => formed.plain() == plain,
            None => matches!(formed, Formed::Named(..)),
        };
        sources.filter(fitting).collect()
    }

    /// A small constant, or the size of something of the type.
    fn any_size(&mut self, scope: &Scope, type_index: usize) -> Linear {
        let sources = self.sources(scope, Some(PlainType::Named(type_index)));
        match (self.random.one_in(4), self.random.try_pick(&sources)) {
            (false, Some((_, Formed::Named(_, form)))) => form.clone(),
            _ => Linear::constant(self.random.between(1, 3) as i64),
        }
    }
}

/// The first constructor without an own-type field; every type has one.
pub fn self_free(definition: &TypeDefinition) -> usize {
    let free = |known: &Constructor| known.own_fields() == 0;
    definition.constructors.iter().position(free).unwrap_or(0)
}

fn formed_field(field: Field, owner: usize, own_size: &Linear) -> Formed {
    match field {
        Field::Bool => Formed::Bool,
        Field::Int => Formed::Int,
        Field::Own => Formed::Named(owner, own_size.clone()),
        Field::Named { type_index, size } => {
            Formed::Named(type_index, Linear::constant(size as i64))
        }
    }
}

/// Mostly small, now and then at the ends of the range.
pub fn random_int(random: &mut Random) -> i32 {
    match random.below(10) {
        0 => i32::MAX - random.below(3) as i32,
        1 => i32::MIN + random.below(3) as i32,
        2 => random.number() as i32,
        _ => random.below(20) as i32 - 5,
    }
}
