//! Linear forms of sizes, by which the generator knows which sizes agree.

use evaluator::syntax::{Condition, Relation, Size};
use std::collections::BTreeMap;

/// A size that the generator leaves open, at least 1 where it stands.
pub type Atom = usize;

/// A constant plus atoms with factors; no factor is 0.
#[derive(Clone, Debug, Default, PartialEq, Eq)]
pub struct Linear {
    pub constant: i64,
    pub terms: BTreeMap<Atom, i64>,
}

impl Linear {
    pub fn constant(constant: i64) -> Linear {
        Linear {
            constant,
            terms: BTreeMap::new(),
        }
    }

    pub fn atom(atom: Atom) -> Linear {
        Linear {
            constant: 0,
            terms: BTreeMap::from([(atom, 1)]),
        }
    }

    /// This form plus `factor` times another.
    pub fn plus_times(&self, factor: i64, other: &Linear) -> Linear {
        let mut terms = self.terms.clone();
        for (atom, count) in &other.terms {
            *terms.entry(*atom).or_insert(0) += factor * count;
        }
        terms.retain(|_, count| *count != 0);
        Linear {
            constant: self.constant + factor * other.constant,
            terms,
        }
    }

    pub fn plus(&self, other: &Linear) -> Linear {
        self.plus_times(1, other)
    }

    pub fn minus(&self, other: &Linear) -> Linear {
        self.plus_times(-1, other)
    }

    pub fn plus_constant(&self, constant: i64) -> Linear {
        self.plus(&Linear::constant(constant))
    }

    /// The form with an atom replaced.
    pub fn substitute(&self, atom: Atom, by: &Linear) -> Linear {
        let factor = self.terms.get(&atom).copied().unwrap_or(0);
        let mut rest = self.clone();
        rest.terms.remove(&atom);
        rest.plus_times(factor, by)
    }

    /// The atom that this form is, if it is one.
    pub fn as_atom(&self) -> Option<Atom> {
        let (atom, factor) = self.terms.first_key_value()?;
        let alone = self.terms.len() == 1 && self.constant == 0 && *factor == 1;
        alone.then_some(*atom)
    }

    pub fn as_constant(&self) -> Option<i64> {
        self.terms.is_empty().then_some(self.constant)
    }

    /// The form of a written size under the forms of its variables.
    pub fn of_size(size: &Size, variables: &[Linear]) -> Linear {
        match size {
            Size::Constant(constant) => Linear::constant(i64::from(*constant)),
            Size::Variable(variable) => variables[*variable].clone(),
            Size::Sum(left, right) => {
                Linear::of_size(left, variables).plus(&Linear::of_size(right, variables))
            }
            Size::Difference(left, right) => {
                Linear::of_size(left, variables).minus(&Linear::of_size(right, variables))
            }
        }
    }
}

/// What is known of an atom.
#[derive(Clone, Copy, Debug)]
pub struct Range {
    pub least: i64,
    pub most: Option<i64>,
}

/// The least value of a form; none where nothing bounds it.
pub fn least(form: &Linear, ranges: &[Range]) -> Option<i64> {
    let mut terms = form.terms.iter();
    terms.try_fold(form.constant, |sum, (atom, factor)| {
        let bound = match *factor > 0 {
            true => Some(ranges[*atom].least),
            false => ranges[*atom].most,
        };
        Some(sum + factor * bound?)
    })
}

/// The largest value of a form; none where nothing bounds it.
pub fn most(form: &Linear, ranges: &[Range]) -> Option<i64> {
    let negated = Linear::default().minus(form);
    least(&negated, ranges).map(|value| -value)
}

/// Whether `left` is at most `right` whatever the atoms are.
pub fn at_most(left: &Linear, right: &Linear, ranges: &[Range]) -> bool {
    least(&right.minus(left), ranges).is_some_and(|value| value >= 0)
}

/// Whether a condition holds whatever the atoms are.
pub fn holds(condition: &Condition, variables: &[Linear], ranges: &[Range]) -> bool {
    let left = Linear::of_size(&condition.left, variables);
    let right = Linear::of_size(&condition.right, variables);
    match condition.relation {
        Relation::Equal => left == right,
        Relation::Less => at_most(&left.plus_constant(1), &right, ranges),
        Relation::AtMost => at_most(&left, &right, ranges),
    }
}
