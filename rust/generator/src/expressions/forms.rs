//! Reading, let, if, operations, case and fit.

use super::{Composer, Source};
use crate::build::{case, fit, if_then, let_in, operation};
use crate::linear::Linear;
use crate::scope::{Formed, Scope};
use evaluator::limits::LARGEST_SIZE;
use evaluator::syntax::{Constructor, Expression, Operator, PlainType};

impl Composer<'_> {
    /// A variable or channel, adjusted.
    pub(super) fn read(&mut self, scope: &Scope, wanted: &Formed) -> Option<Expression> {
        let sources = self.sources(scope, Some(wanted.plain()));
        let (source, found) = self.random.try_pick(&sources)?.clone();
        match (found, wanted) {
            (Formed::Named(_, found), Formed::Named(_, form)) => match self.let_through() {
                true => Some(source),
                false => self.adjusted(scope, source, &found, form),
            },
            _ => Some(source),
        }
    }

    pub(super) fn let_in(
        &mut self,
        scope: &Scope,
        wanted: &Formed,
        level: usize,
    ) -> Option<Expression> {
        if !scope.has_room(1, 0) {
            return None;
        }
        let bound_type = self.any_type(scope);
        let bound = self.expression(scope, &bound_type, level + 1);
        let body = self.expression(&scope.with(bound_type), wanted, level + 1);
        Some(let_in(bound, body))
    }

    pub(super) fn any_type(&mut self, scope: &Scope) -> Formed {
        let named = self.sources(scope, None);
        match self.random.below(5) {
            0 => Formed::Bool,
            1 | 2 => Formed::Int,
            3 if !named.is_empty() => self.random.pick(&named).1.clone(),
            _ => self.any_named_type().unwrap_or(Formed::Int),
        }
    }

    pub(super) fn any_named_type(&mut self) -> Option<Formed> {
        if self.types.is_empty() {
            return None;
        }
        let size = self.random.between(1, 5) as i64;
        let type_index = self.random.below(self.types.len());
        Some(Formed::Named(type_index, Linear::constant(size)))
    }

    pub(super) fn if_then(
        &mut self,
        scope: &Scope,
        wanted: &Formed,
        level: usize,
    ) -> Option<Expression> {
        let condition = self.expression(scope, &Formed::Bool, level + 1);
        let then_arm = self.expression(scope, wanted, level + 1);
        let else_arm = self.expression(scope, wanted, level + 1);
        Some(if_then(condition, then_arm, else_arm))
    }

    pub(super) fn operation(&mut self, scope: &Scope, wanted: &Formed, level: usize) -> Expression {
        let operators: &[Operator] = match wanted {
            Formed::Int => &[Operator::Add, Operator::Subtract, Operator::Multiply],
            _ => &[
                Operator::Equal,
                Operator::Less,
                Operator::AtMost,
                Operator::And,
                Operator::Or,
            ],
        };
        let operator = *self.random.pick(operators);
        let operands = match operator.operands() {
            PlainType::Bool => Formed::Bool,
            _ => Formed::Int,
        };
        let left = self.expression(scope, &operands, level + 1);
        let right = self.expression(scope, &operands, level + 1);
        operation(operator, left, right)
    }

    pub(super) fn any_case(
        &mut self,
        scope: &Scope,
        wanted: &Formed,
        level: usize,
    ) -> Option<Expression> {
        let sources = self.sources(scope, None);
        let (scrutinee, formed) = match self.random.try_pick(&sources) {
            Some(source) => source.clone(),
            None => {
                let formed = self.any_named_type()?;
                (self.expression(scope, &formed, level + 1), formed)
            }
        };
        self.case(scope, (scrutinee, formed), wanted, level)
    }

    /// A case over a given scrutinee.
    pub fn case(
        &mut self,
        scope: &Scope,
        (scrutinee, formed): Source,
        wanted: &Formed,
        level: usize,
    ) -> Option<Expression> {
        let Formed::Named(type_index, form) = formed else {
            return None;
        };
        let types = self.types;
        let constructors = &types[type_index].constructors;
        let room = |known: &Constructor| scope.has_room(known.fields.len(), known.own_fields());
        constructors.iter().all(room).then_some(())?;
        let return_type = scope.write_type(self.random, wanted)?;
        let mut branches = Vec::with_capacity(constructors.len());
        for constructor in constructors {
            let (inner, wanted) = scope.branch((type_index, &form), constructor, wanted);
            branches.push(self.expression(&inner, &wanted, level + 1));
        }
        Some(case(type_index, scrutinee, return_type, branches))
    }

    pub(super) fn fit(
        &mut self,
        scope: &Scope,
        wanted: &Formed,
        level: usize,
    ) -> Option<Expression> {
        let sources = self.sources(scope, None);
        let (subject, formed) = self.random.try_pick(&sources)?.clone();
        let Formed::Named(type_index, form) = formed else {
            return None;
        };
        scope.has_room(1, 0).then_some(())?;
        let most = form
            .as_constant()
            .unwrap_or(8)
            .clamp(1, LARGEST_SIZE as i64);
        let size = self.random.between(1, most as usize);
        let fitted = Formed::Named(type_index, Linear::constant(size as i64));
        let fits = self.expression(&scope.with(fitted), wanted, level + 1);
        let otherwise = self.expression(scope, wanted, level + 1);
        Some(fit(size, subject, fits, otherwise))
    }
}
