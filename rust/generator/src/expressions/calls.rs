//! Calls of earlier functions, and self-calls whose measure falls.

use super::{Composer, Signature, Source};
use crate::build::call;
use crate::linear::{at_most, holds, Linear};
use crate::scope::{Formed, Scope};
use evaluator::syntax::{Condition, Expression, PlainType, WrittenType};

impl Composer<'_> {
    pub(super) fn call(
        &mut self,
        scope: &Scope,
        wanted: &Formed,
        level: usize,
    ) -> Option<Expression> {
        let function = self.any_function(wanted.plain())?;
        let signatures = self.signatures;
        let called = &signatures[function];
        let sizes = self.argument_sizes(scope, called);
        self.may_call(scope, function, &sizes).then_some(())?;
        if Some(function) == self.own {
            self.self_calls -= 1;
        }
        let arguments = self.arguments(scope, called, &sizes, level + 1);
        let made = call(function, arguments);
        match (&called.result, wanted) {
            (WrittenType::Named { size, .. }, Formed::Named(_, form)) => {
                let found = Linear::of_size(size, &sizes);
                self.adjusted(scope, made, &found, form)
            }
            _ => Some(made),
        }
    }

    pub(super) fn any_function(&mut self, result: PlainType) -> Option<usize> {
        let own = |at: &usize| Some(*at) == self.own;
        let fitting = |at: &usize| {
            let allowed = !own(at) || self.self_calls > 0;
            allowed && self.signatures[*at].result.plain() == result
        };
        let fitting: Vec<usize> = (0..self.signatures.len()).filter(fitting).collect();
        match fitting.iter().copied().find(own) {
            Some(own) if !self.random.one_in(3) => Some(own),
            _ => self.random.try_pick(&fitting).copied(),
        }
    }

    pub(super) fn argument_sizes(&mut self, scope: &Scope, called: &Signature) -> Vec<Linear> {
        let mut sizes = Vec::new();
        for parameter in &called.parameters {
            if let PlainType::Named(type_index) = parameter {
                sizes.push(self.any_size(scope, *type_index));
            }
        }
        sizes
    }

    /// Whether conditions hold and, for a self-call, the measure falls.
    pub(super) fn may_call(&mut self, scope: &Scope, function: usize, sizes: &[Linear]) -> bool {
        let called = &self.signatures[function];
        let condition = |known: &Condition| holds(known, sizes, &scope.ranges);
        let admitted = called.conditions.iter().all(condition);
        if Some(function) != self.own {
            return admitted || self.let_through();
        }
        let variables = called.measure.iter().map(|variable| &sizes[*variable]);
        let measure = variables.fold(Linear::constant(0), |sum, size| sum.plus(size));
        let around = scope.measure.clone().unwrap_or_default();
        let falls = at_most(&measure.plus_constant(1), &around, &scope.ranges);
        // A measure that does not fall hides everything behind it.
        (admitted && falls) || (self.random.one_in(4) && self.let_through())
    }

    pub(super) fn arguments(
        &mut self,
        scope: &Scope,
        called: &Signature,
        sizes: &[Linear],
        level: usize,
    ) -> Vec<Expression> {
        let mut sizes = sizes.iter();
        let mut arguments = Vec::with_capacity(called.parameters.len());
        for parameter in &called.parameters {
            let wanted = match parameter {
                PlainType::Bool => Formed::Bool,
                PlainType::Int => Formed::Int,
                PlainType::Named(type_index) => {
                    Formed::Named(*type_index, sizes.next().cloned().unwrap_or_default())
                }
            };
            arguments.push(self.argument(scope, &wanted, level));
        }
        arguments
    }

    /// Mostly something in scope of exactly that type.
    pub(super) fn argument(&mut self, scope: &Scope, wanted: &Formed, level: usize) -> Expression {
        let sources = self.sources(scope, Some(wanted.plain()));
        let exact = |(_, formed): &&Source| formed == wanted;
        let exact: Vec<&Source> = sources.iter().filter(exact).collect();
        match self.random.try_pick(&exact) {
            Some((source, _)) if !self.random.one_in(3) => source.clone(),
            _ => self.expression(scope, wanted, level),
        }
    }
}
