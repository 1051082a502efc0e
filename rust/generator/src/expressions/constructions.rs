//! Constructions: a size shared out over the own-type fields.

use super::{formed_field, Composer};
use crate::build::construction;
use crate::linear::Linear;
use crate::scope::{Formed, Scope};
use evaluator::syntax::{Constructor, Expression, Field};

impl Composer<'_> {
    pub(super) fn own_form(
        &mut self,
        scope: &Scope,
        wanted: &Formed,
        level: usize,
    ) -> Option<Expression> {
        match wanted {
            Formed::Bool | Formed::Int => Some(self.operation(scope, wanted, level)),
            Formed::Named(type_index, form) => self.construction(scope, (*type_index, form), level),
        }
    }

    pub(super) fn construction(
        &mut self,
        scope: &Scope,
        (type_index, form): (usize, &Linear),
        level: usize,
    ) -> Option<Expression> {
        let constructors = &self.types[type_index].constructors;
        let constructor = self.random.below(constructors.len());
        let known = &constructors[constructor];
        let own = known.own_fields();
        let total = match own {
            0 => Linear::constant(1),
            _ => self.total(scope, form),
        };
        let sizes = self.distribute(scope, type_index, &total, own)?;
        let fields = self.fields(scope, (type_index, known), &sizes, level + 1);
        let made = construction(type_index, constructor, fields);
        self.adjusted(scope, made, &total, form)
    }

    /// The size of a construction that is adjusted to `form`.
    pub(super) fn total(&mut self, scope: &Scope, form: &Linear) -> Linear {
        let less = form.plus_constant(-(self.random.below(3) as i64));
        match self.shown(scope, &Linear::constant(2), &less) {
            true => less,
            false => form.clone(),
        }
    }

    /// Sizes of the own-type fields of a construction of size `total`.
    pub(super) fn distribute(
        &mut self,
        scope: &Scope,
        type_index: usize,
        total: &Linear,
        own: usize,
    ) -> Option<Vec<Linear>> {
        let mut rest = total.plus_constant(-1);
        let mut sizes = Vec::with_capacity(own);
        for following in (1..own).rev() {
            let part = self.any_size(scope, type_index);
            rest = rest.minus(&part);
            let least = Linear::constant(following as i64);
            self.shown(scope, &least, &rest).then_some(())?;
            sizes.push(part);
        }
        if own > 0 {
            let one = Linear::constant(1);
            self.shown(scope, &one, &rest).then_some(())?;
            sizes.push(rest);
        }
        Some(sizes)
    }

    pub(super) fn fields(
        &mut self,
        scope: &Scope,
        (type_index, known): (usize, &Constructor),
        sizes: &[Linear],
        level: usize,
    ) -> Vec<Expression> {
        let mut own = sizes.iter();
        let mut fields = Vec::with_capacity(known.fields.len());
        for field in &known.fields {
            let size = match field {
                Field::Own => own.next().cloned().unwrap_or_default(),
                _ => Linear::default(),
            };
            let wanted = formed_field(*field, type_index, &size);
            fields.push(self.expression(scope, &wanted, level));
        }
        fields
    }
}
