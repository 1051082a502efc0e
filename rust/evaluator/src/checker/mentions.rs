//! Which variables and size variables an expression names.
//!
//! Variables are numbered by place in scope, so inside a branch the number of
//! one of its fields stands for that field alone.

use crate::syntax::{Expression, Size, WrittenType};
use std::collections::BTreeSet;

#[derive(Debug, Default)]
pub(super) struct Mentions {
    variables: BTreeSet<usize>,
    size_variables: BTreeSet<usize>,
}

impl Mentions {
    pub(super) fn of(expression: &Expression) -> Mentions {
        let mut mentions = Mentions::default();
        mentions.expression(expression);
        mentions
    }

    pub(super) fn variable(&self, at: usize) -> bool {
        self.variables.contains(&at)
    }

    pub(super) fn size_variable(&self, at: usize) -> bool {
        self.size_variables.contains(&at)
    }

    fn expression(&mut self, expression: &Expression) {
        match expression {
            Expression::Variable(at) => drop(self.variables.insert(*at)),
            Expression::Case(parts) => self.return_type(&parts.return_type),
            Expression::Adjust(parts) => self.size(&parts.size),
            _ => (),
        }
        for part in expression.parts() {
            self.expression(part);
        }
    }

    fn return_type(&mut self, written: &WrittenType) {
        if let WrittenType::Named { size, .. } = written {
            self.size(size);
        }
    }

    fn size(&mut self, size: &Size) {
        match size {
            Size::Constant(_) => (),
            Size::Variable(at) => drop(self.size_variables.insert(*at)),
            Size::Sum(left, right) | Size::Difference(left, right) => {
                self.size(left);
                self.size(right);
            }
        }
    }
}
