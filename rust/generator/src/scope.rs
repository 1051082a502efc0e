//! What is bound at a place, and what the generator knows of its sizes.

use crate::linear::{least, most, Linear, Range};
use crate::random::Random;
use evaluator::limits::{SIZE_VARIABLES, VARIABLES};
use evaluator::syntax::{Constructor, Field, PlainType, Size, SizedType, WrittenType};

/// A type whose size is a linear form.
#[derive(Clone, Debug, PartialEq, Eq)]
pub enum Formed {
    Bool,
    Int,
    Named(usize, Linear),
}

impl Formed {
    pub fn of_declared(declared: SizedType) -> Formed {
        match declared {
            SizedType::Bool => Formed::Bool,
            SizedType::Int => Formed::Int,
            SizedType::Named { type_index, size } => {
                Formed::Named(type_index, Linear::constant(size as i64))
            }
        }
    }

    pub fn plain(&self) -> PlainType {
        match self {
            Formed::Bool => PlainType::Bool,
            Formed::Int => PlainType::Int,
            Formed::Named(type_index, _) => PlainType::Named(*type_index),
        }
    }

    fn map(&self, change: impl Fn(&Linear) -> Linear) -> Formed {
        match self {
            Formed::Named(type_index, form) => Formed::Named(*type_index, change(form)),
            Formed::Bool | Formed::Int => self.clone(),
        }
    }
}

#[derive(Clone, Debug, Default)]
pub struct Scope {
    pub variables: Vec<Formed>,
    pub size_variables: Vec<Linear>,
    pub ranges: Vec<Range>,
    /// The summed measure of the function around, if any.
    pub measure: Option<Linear>,
}

impl Scope {
    /// A new atom at least 1.
    pub fn fresh(&mut self, most: Option<i64>) -> Linear {
        self.ranges.push(Range { least: 1, most });
        Linear::atom(self.ranges.len() - 1)
    }

    pub fn has_room(&self, variables: usize, size_variables: usize) -> bool {
        self.variables.len() + variables <= VARIABLES
            && self.size_variables.len() + size_variables <= SIZE_VARIABLES
    }

    pub fn with(&self, variable: Formed) -> Scope {
        let mut scope = self.clone();
        scope.variables.push(variable);
        scope
    }

    /// The scope of a branch, and the wanted type as it reads there. An atom
    /// that is split is replaced by 1 plus its parts.
    pub fn branch(
        &self,
        (type_index, form): (usize, &Linear),
        constructor: &Constructor,
        wanted: &Formed,
    ) -> (Scope, Formed) {
        let mut scope = self.clone();
        let mut wanted = wanted.clone();
        let parts = scope.parts(form, constructor.own_fields());
        if let (Some(atom), false) = (form.as_atom(), parts.is_empty()) {
            let total = parts
                .iter()
                .fold(Linear::constant(1), |sum, part| sum.plus(part));
            scope.substitute(|known| known.substitute(atom, &total));
            wanted = wanted.map(|known| known.substitute(atom, &total));
        }
        scope.bind_fields(type_index, constructor, &parts);
        (scope, wanted)
    }

    /// The forms of the own-type fields of a scrutinee of size `form`.
    fn parts(&mut self, form: &Linear, count: usize) -> Vec<Linear> {
        if count == 1 && form.as_atom().is_none() {
            return vec![form.plus_constant(-1)];
        }
        let taken_by_others = count as i64;
        let most = most(form, &self.ranges).map(|size| (size - taken_by_others).max(1));
        let least = least(form, &self.ranges).filter(|_| count == 1);
        let parts: Vec<Linear> = (0..count).map(|_| self.fresh(most)).collect();
        if let (Some(least), Some(range)) = (least, self.ranges.last_mut()) {
            range.least = (least - 1).max(1);
        }
        parts
    }

    fn substitute(&mut self, change: impl Fn(&Linear) -> Linear) {
        for variable in &mut self.variables {
            *variable = variable.map(&change);
        }
        self.size_variables = self.size_variables.iter().map(&change).collect();
        self.measure = self.measure.as_ref().map(&change);
    }

    fn bind_fields(&mut self, owner: usize, constructor: &Constructor, parts: &[Linear]) {
        let mut own = parts.iter();
        for field in &constructor.fields {
            self.variables.push(match *field {
                Field::Bool => Formed::Bool,
                Field::Int => Formed::Int,
                Field::Own => Formed::Named(owner, own.next().cloned().unwrap_or_default()),
                Field::Named { type_index, size } => {
                    Formed::Named(type_index, Linear::constant(size as i64))
                }
            });
        }
        self.size_variables.extend_from_slice(parts);
    }

    /// A written size with this form; none where an atom has no variable.
    pub fn write(&self, random: &mut Random, form: &Linear) -> Option<Size> {
        let whole = self.size_variables.iter().position(|known| known == form);
        if let (Some(variable), false) = (whole, form.terms.is_empty()) {
            return Some(Size::Variable(variable));
        }
        let mut added = Vec::new();
        let mut taken = Vec::new();
        for (atom, factor) in &form.terms {
            let known = Linear::atom(*atom);
            let variable = self.size_variables.iter().position(|size| *size == known)?;
            let side = if *factor > 0 { &mut added } else { &mut taken };
            let copies = std::iter::repeat(Size::Variable(variable));
            side.extend(copies.take(factor.unsigned_abs() as usize));
        }
        let side = if form.constant < 0 {
            &mut taken
        } else {
            &mut added
        };
        if form.constant != 0 || side.is_empty() {
            side.push(Size::Constant(
                u8::try_from(form.constant.unsigned_abs()).ok()?,
            ));
        }
        let added = shuffled_sum(random, added).unwrap_or(Size::Constant(0));
        match shuffled_sum(random, taken) {
            Some(taken) => Some(Size::Difference(Box::new(added), Box::new(taken))),
            None => Some(added),
        }
    }

    pub fn write_type(&self, random: &mut Random, wanted: &Formed) -> Option<WrittenType> {
        match wanted {
            Formed::Bool => Some(WrittenType::Bool),
            Formed::Int => Some(WrittenType::Int),
            Formed::Named(type_index, form) => Some(WrittenType::Named {
                type_index: *type_index,
                size: self.write(random, form)?,
            }),
        }
    }
}

/// The sum of some sizes in random order, none of no sizes.
fn shuffled_sum(random: &mut Random, mut sizes: Vec<Size>) -> Option<Size> {
    let mut total = None;
    while !sizes.is_empty() {
        let next = sizes.swap_remove(random.below(sizes.len()));
        total = Some(match total {
            None => next,
            Some(before) => Size::Sum(Box::new(before), Box::new(next)),
        });
    }
    total
}
