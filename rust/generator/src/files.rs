//! Random files: well-typed, or loose with sizes now and then wrong.

use crate::expressions::{Composer, Signature};
use crate::functions::{random_function, Setting};
use crate::random::Random;
use crate::scope::{Formed, Scope};
use crate::types::random_types;
use crate::values::{initial_expression, random_value};
use crate::writer;
use evaluator::limits::{FUNCTIONS, INPUTS, LARGEST_SIZE, NODES, TEXT_CHARACTERS};
use evaluator::syntax::{Constructor, Expression, File, Input, Node, SizedType, TypeDefinition};

/// A file whose text is within its limit.
pub fn random_file(random: &mut Random, loose: bool) -> File {
    loop {
        let file = any_file(random, loose);
        if writer::text(&file).len() <= TEXT_CHARACTERS {
            return file;
        }
    }
}

fn any_file(random: &mut Random, loose: bool) -> File {
    let mut file = File {
        types: random_types(random),
        ..File::default()
    };
    let signatures = add_functions(random, &mut file, loose);
    let inputs = random_count(random, 0, 3, INPUTS);
    let nodes = random_count(random, 1, 3, NODES);
    let channels = random_declarations(random, &file.types, inputs + nodes);
    add_inputs(random, &mut file, &channels[..inputs]);
    let setting = Setting {
        types: &file.types,
        earlier: &signatures,
        loose,
    };
    let order = random_order(random, nodes);
    file.nodes = (0..nodes)
        .map(|node| {
            let place = Place {
                channels: &channels,
                channel: inputs + node,
                current: &readable(inputs, &order, node),
            };
            random_node(random, &setting, &place)
        })
        .collect();
    file
}

/// An order in which nodes may be updated, in half of the files the table's.
fn random_order(random: &mut Random, nodes: usize) -> Vec<usize> {
    match random.one_in(2) {
        true => (0..nodes).collect(),
        false => random.order(nodes),
    }
}

/// The channels that a node may name by `13`: the inputs, and the nodes before
/// it in an order.
fn readable(inputs: usize, order: &[usize], node: usize) -> Vec<usize> {
    let before = order.iter().take_while(|other| **other != node);
    (0..inputs)
        .chain(before.map(|other| inputs + other))
        .collect()
}

/// A node's channel among all, and those that it may name by `13`.
struct Place<'a> {
    channels: &'a [SizedType],
    channel: usize,
    current: &'a [usize],
}

fn add_inputs(random: &mut Random, file: &mut File, declarations: &[SizedType]) {
    for declared in declarations {
        file.inputs.push(Input {
            declared: *declared,
            initial: random_initial(random, &file.types, *declared),
        });
    }
}

fn random_node(random: &mut Random, setting: &Setting, place: &Place) -> Node {
    let declared = place.channels[place.channel];
    Node {
        declared,
        initial: random_initial(random, setting.types, declared),
        update: random_update(random, setting, place),
    }
}

/// Mostly from `least` to `usual`, now and then up to `most`.
fn random_count(random: &mut Random, least: usize, usual: usize, most: usize) -> usize {
    match random.one_in(30) {
        true => random.between(least, most),
        false => random.between(least, usual),
    }
}

fn add_functions(random: &mut Random, file: &mut File, loose: bool) -> Vec<Signature> {
    let count = random_count(random, 0, 5, FUNCTIONS);
    let mut signatures = Vec::with_capacity(count);
    for _ in 0..count {
        let setting = Setting {
            types: &file.types,
            earlier: &signatures,
            loose,
        };
        let (signature, function) = random_function(random, &setting);
        signatures.push(signature);
        file.functions.push(function);
    }
    signatures
}

fn random_declarations(
    random: &mut Random,
    types: &[TypeDefinition],
    count: usize,
) -> Vec<SizedType> {
    (0..count).map(|_| random_declared(random, types)).collect()
}

fn random_declared(random: &mut Random, types: &[TypeDefinition]) -> SizedType {
    match random.below(5) {
        0 => SizedType::Bool,
        1 => SizedType::Int,
        _ if types.is_empty() => SizedType::Int,
        _ => {
            let type_index = random.below(types.len());
            let size = random_size(random, &types[type_index]);
            SizedType::Named { type_index, size }
        }
    }
}

/// Sizes of types that branch stay small, so that splits stay few.
fn random_size(random: &mut Random, definition: &TypeDefinition) -> usize {
    let branching = definition.constructors.iter().map(Constructor::own_fields);
    let most = match branching.max().unwrap_or(0) {
        0 | 1 if random.one_in(12) => LARGEST_SIZE,
        0 | 1 => 9,
        2 => 9,
        _ => 7,
    };
    random.between(1, most)
}

fn random_initial(
    random: &mut Random,
    types: &[TypeDefinition],
    declared: SizedType,
) -> Expression {
    let small = match declared {
        SizedType::Named { type_index, size } => SizedType::Named {
            type_index,
            size: size.min(random.between(1, 5)),
        },
        SizedType::Bool | SizedType::Int => declared,
    };
    let tree = random_value(random, types, small);
    initial_expression(types, &tree, declared)
}

fn random_update(random: &mut Random, setting: &Setting, place: &Place) -> Expression {
    let mut composer = Composer {
        types: setting.types,
        signatures: setting.earlier,
        own: None,
        channels: place.channels,
        current: place.current,
        loose: setting.loose,
        budget: random.between(3, 30),
        self_calls: 0,
        deepest: random.between(3, 10),
        random,
    };
    let wanted = Formed::of_declared(place.channels[place.channel]);
    composer.expression(&Scope::default(), &wanted, 1)
}
