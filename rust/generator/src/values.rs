//! Random values of a declared type, and the input lines made of them.

use crate::build::{adjust, construction};
use crate::expressions::random_int;
use crate::random::Random;
use crate::writer::input_line;
use evaluator::syntax::{Constructor, Expression, Field, File, Size, SizedType, TypeDefinition};
use evaluator::value::{construction_size, Tree};
use std::rc::Rc;

/// A value whose sizes are within the declaration and the fields' k, now and
/// then as large as can be.
pub fn random_value(random: &mut Random, types: &[TypeDefinition], wanted: SizedType) -> Rc<Tree> {
    let full = random.one_in(4);
    let mut maker = Maker {
        random,
        types,
        full,
    };
    maker.value(wanted)
}

struct Maker<'a> {
    random: &'a mut Random,
    types: &'a [TypeDefinition],
    full: bool,
}

impl Maker<'_> {
    fn value(&mut self, wanted: SizedType) -> Rc<Tree> {
        Rc::new(match wanted {
            SizedType::Bool => Tree::Bool(self.random.one_in(2)),
            SizedType::Int => Tree::Int(random_int(self.random)),
            SizedType::Named { type_index, size } => self.construction(type_index, size),
        })
    }

    fn construction(&mut self, type_index: usize, largest: usize) -> Tree {
        let constructor = self.constructor(type_index, largest);
        let known = &self.types[type_index].constructors[constructor];
        let fields = self.fields((type_index, known), largest);
        let sizes: Vec<usize> = fields.iter().map(|field| field.size()).collect();
        Tree::Construction {
            type_index,
            constructor,
            size: construction_size(known, &sizes),
            fields,
        }
    }

    /// A constructor that the size allows, mostly one with own-type fields.
    fn constructor(&mut self, type_index: usize, largest: usize) -> usize {
        let constructors = &self.types[type_index].constructors;
        let small_enough = |at: &usize| constructors[*at].own_fields() < largest;
        let possible: Vec<usize> = (0..constructors.len()).filter(small_enough).collect();
        let own = |at: &usize| constructors[*at].own_fields() > 0;
        let growing: Vec<usize> = possible.iter().copied().filter(own).collect();
        match self.random.try_pick(&growing) {
            Some(growing) if self.full || !self.random.one_in(4) => *growing,
            _ => *self.random.pick(&possible),
        }
    }

    fn fields(&mut self, (owner, known): (usize, &Constructor), largest: usize) -> Vec<Rc<Tree>> {
        let mut own_left = known.own_fields();
        let mut size_left = largest - 1;
        let mut fields = Vec::with_capacity(known.fields.len());
        for field in &known.fields {
            let wanted = match *field {
                Field::Bool => SizedType::Bool,
                Field::Int => SizedType::Int,
                Field::Named { type_index, size } => SizedType::Named { type_index, size },
                Field::Own => {
                    own_left -= 1;
                    self.own_field(owner, size_left - own_left, own_left)
                }
            };
            let value = self.value(wanted);
            if *field == Field::Own {
                size_left -= value.size();
            }
            fields.push(value);
        }
        fields
    }

    /// An own-type field with `following` others after it.
    fn own_field(&mut self, type_index: usize, largest: usize, following: usize) -> SizedType {
        let size = match self.full && following == 0 {
            true => largest,
            false => self.random.between(1, largest),
        };
        SizedType::Named { type_index, size }
    }
}

/// Values of all channels, or of the inputs alone.
pub fn random_channels(random: &mut Random, file: &File, count: usize) -> Vec<Rc<Tree>> {
    let value = |channel| random_value(random, &file.types, file.declared(channel));
    (0..count).map(value).collect()
}

/// A line that the file allows.
pub fn random_line(random: &mut Random, file: &File) -> Vec<u8> {
    input_line(&random_channels(random, file, file.inputs.len()))
}

/// The value as an initial value of exactly its declared size.
pub fn initial_expression(types: &[TypeDefinition], tree: &Tree, wanted: SizedType) -> Expression {
    let made = match tree {
        Tree::Bool(value) => Expression::Bool(*value),
        Tree::Int(value) => Expression::Int(*value),
        Tree::Construction {
            type_index,
            constructor,
            fields,
            ..
        } => {
            let known = &types[*type_index].constructors[*constructor];
            let field = |(field, tree): (&Field, &Rc<Tree>)| initial_field(types, *field, tree);
            let fields = known.fields.iter().zip(fields).map(field).collect();
            construction(*type_index, *constructor, fields)
        }
    };
    match wanted {
        SizedType::Named { size, .. } if size != tree.size() => {
            adjust(Size::Constant(size as u8), made)
        }
        _ => made,
    }
}

/// An own-type field keeps its real size, a field of another type has its k.
fn initial_field(types: &[TypeDefinition], field: Field, tree: &Tree) -> Expression {
    let wanted = match field {
        Field::Named { type_index, size } => SizedType::Named { type_index, size },
        Field::Bool | Field::Int | Field::Own => SizedType::Int,
    };
    initial_expression(types, tree, wanted)
}
