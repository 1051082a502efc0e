//! The cells of a type, against all values of small sizes.

use evaluator::cells::CellTable;
use evaluator::limits::LARGEST_NUMBER;
use evaluator::syntax::{Field, TypeDefinition};
use generator::build::declared;
use generator::examples::listing3;
use generator::random::Random;
use generator::types::random_types;

#[test]
fn cells_of_the_list_of_listing3_at_1_and_5_are_1_and_9() {
    let table = CellTable::new(&listing3().types);
    assert_eq!(table.of(declared(0, 1)), 1);
    assert_eq!(table.of(declared(0, 5)), 9);
}

/// The most cells of a value of exactly this size, none where there is none.
fn exactly(types: &[TypeDefinition], owner: usize, size: usize) -> Option<u64> {
    let constructors = types[owner].constructors.iter();
    let sizes = constructors.map(|known| {
        let fixed: u64 = known.fields.iter().map(|field| fixed(types, *field)).sum();
        let own = shared_out(types, owner, known.own_fields(), size.checked_sub(1)?)?;
        Some(1 + fixed + own)
    });
    sizes.flatten().max()
}

/// The most cells of `parts` values whose sizes are together exactly `total`.
fn shared_out(types: &[TypeDefinition], owner: usize, parts: usize, total: usize) -> Option<u64> {
    if parts == 0 {
        return (total == 0).then_some(0);
    }
    let splits = (1..=total).filter_map(|first| {
        let one = exactly(types, owner, first)?;
        Some(one + shared_out(types, owner, parts - 1, total - first)?)
    });
    splits.max()
}

fn fixed(types: &[TypeDefinition], field: Field) -> u64 {
    match field {
        Field::Own => 0,
        Field::Bool | Field::Int => 1,
        Field::Named { type_index, size } => at_most(types, type_index, size),
    }
}

fn at_most(types: &[TypeDefinition], owner: usize, size: usize) -> u64 {
    let exact = (1..=size).filter_map(|size| exactly(types, owner, size));
    exact.max().unwrap_or(0)
}

#[test]
fn cells_are_the_most_of_any_value_of_at_most_that_size() {
    let mut random = Random::new(7);
    for _ in 0..400 {
        let types = random_types(&mut random);
        let table = CellTable::new(&types);
        let size = random.between(1, 5);
        let expected = |owner| at_most(&types, owner, size).min(u64::from(LARGEST_NUMBER));
        let owners = 0..types.len().min(3);
        let found = |owner| u64::from(table.of(declared(owner, size)));
        assert!(owners.clone().map(found).eq(owners.map(expected)));
    }
}
