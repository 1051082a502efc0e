//! Working out sizes: ev of figure 3, with whole numbers that may be negative.

use crate::limits::{LARGEST_SIZE, LEAST_SIZE};
use crate::syntax::{Condition, Relation, Size, SizedType, WrittenType};

/// The value of a size under the sizes of its variables.
pub fn value(size: &Size, variables: &[usize]) -> i64 {
    match size {
        Size::Constant(constant) => i64::from(*constant),
        Size::Variable(variable) => variables[*variable] as i64,
        Size::Sum(left, right) => value(left, variables) + value(right, variables),
        Size::Difference(left, right) => value(left, variables) - value(right, variables),
    }
}

/// The size of a type: none outside 1 to 64 (refusal 10).
pub fn in_range(size: i64) -> Option<usize> {
    let size = usize::try_from(size).ok()?;
    (LEAST_SIZE..=LARGEST_SIZE).contains(&size).then_some(size)
}

/// A written type with its size worked out; none outside 1 to 64.
pub fn sized(written: &WrittenType, variables: &[usize]) -> Option<SizedType> {
    match written {
        WrittenType::Bool => Some(SizedType::Bool),
        WrittenType::Int => Some(SizedType::Int),
        WrittenType::Named { type_index, size } => Some(SizedType::Named {
            type_index: *type_index,
            size: in_range(value(size, variables))?,
        }),
    }
}

pub fn holds(condition: &Condition, variables: &[usize]) -> bool {
    let left = value(&condition.left, variables);
    let right = value(&condition.right, variables);
    match condition.relation {
        Relation::Equal => left == right,
        Relation::Less => left < right,
        Relation::AtMost => left <= right,
    }
}

/// The summed measure of a function at the sizes of its named arguments.
pub fn measure(measure: &[usize], variables: &[usize]) -> usize {
    measure.iter().map(|variable| variables[*variable]).sum()
}
