//! Random type definitions.

use crate::build::definition;
use crate::random::Random;
use evaluator::limits::{CONSTRUCTORS, FIELDS, TYPES};
use evaluator::syntax::{Constructor, Field, TypeDefinition};

/// Some types, the first often a list or a tree.
pub fn random_types(random: &mut Random) -> Vec<TypeDefinition> {
    let count = match random.below(12) {
        0 => 0,
        1 => random.between(1, TYPES),
        _ => random.between(1, 3),
    };
    let mut types = Vec::with_capacity(count);
    for at in 0..count {
        types.push(random_type(random, at));
    }
    types
}

fn random_type(random: &mut Random, at: usize) -> TypeDefinition {
    match random.below(5) {
        0 | 1 => list(random, at),
        2 => tree(random, at),
        _ => random_definition(random, at),
    }
}

fn list(random: &mut Random, at: usize) -> TypeDefinition {
    let item = simple_field(random, at);
    ordered(random, &[item, Field::Own])
}

fn tree(random: &mut Random, at: usize) -> TypeDefinition {
    let item = simple_field(random, at);
    ordered(random, &[Field::Own, item, Field::Own])
}

/// An empty constructor and one with fields, in either order.
fn ordered(random: &mut Random, fields: &[Field]) -> TypeDefinition {
    match random.one_in(3) {
        true => definition(&[fields, &[]]),
        false => definition(&[&[], fields]),
    }
}

fn random_definition(random: &mut Random, at: usize) -> TypeDefinition {
    let count = match random.one_in(10) {
        true => random.between(1, CONSTRUCTORS),
        false => random.between(1, 3),
    };
    let self_free = random.below(count);
    let mut constructors = Vec::with_capacity(count);
    for constructor in 0..count {
        constructors.push(random_constructor(random, at, constructor == self_free));
    }
    TypeDefinition { constructors }
}

fn random_constructor(random: &mut Random, at: usize, self_free: bool) -> Constructor {
    let count = match random.one_in(5) {
        true => random.between(0, FIELDS),
        false => random.between(0, 2),
    };
    let mut fields = Vec::with_capacity(count);
    for _ in 0..count {
        let own = !self_free && random.one_in(2);
        fields.push(match own {
            true => Field::Own,
            false => simple_field(random, at),
        });
    }
    Constructor { fields }
}

/// A field that is not of the type itself.
fn simple_field(random: &mut Random, at: usize) -> Field {
    match random.below(5) {
        0 => Field::Bool,
        1 if at > 0 => Field::Named {
            type_index: random.below(at),
            size: random.between(1, 4),
        },
        _ => Field::Int,
    }
}
