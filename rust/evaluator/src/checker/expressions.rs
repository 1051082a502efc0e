//! Expressions other than calls and cases: parts from left to right, then the
//! whole, where 10 precedes 11.

use super::{Check, Checked, Checker, Place};
use crate::answer::{Fault, Refusal};
use crate::estimate::Estimate;
use crate::sizes;
use crate::syntax::{
    Adjust, Construction, Constructor, Expression, Field, Fit, If, Let, Operation, SizedType,
};

impl Checker<'_> {
    pub(super) fn expression(&mut self, place: &mut Place, expression: &Expression) -> Check {
        match expression {
            Expression::Bool(_) => Ok(Checked::new(SizedType::Bool, Estimate::CELL)),
            Expression::Int(_) => Ok(Checked::new(SizedType::Int, Estimate::CELL)),
            Expression::Variable(at) => Ok(Checked::new(place.variables[*at], Estimate::NONE)),
            Expression::Channel(at) | Expression::Previous(at) => {
                Ok(Checked::new(self.file.declared(*at), Estimate::NONE))
            }
            Expression::Let(parts) => self.let_in(place, parts),
            Expression::If(parts) => self.if_then(place, parts),
            Expression::Operation(parts) => self.operation(place, parts),
            Expression::Call(parts) => self.call(place, parts),
            Expression::Construction(parts) => self.construction(place, parts),
            Expression::Case(parts) => self.case(place, parts),
            Expression::Adjust(parts) => self.adjust(place, parts),
            Expression::Fit(parts) => self.fit(place, parts),
        }
    }

    /// Parts from left to right, with the estimate of all of them.
    pub(super) fn parts(
        &mut self,
        place: &mut Place,
        parts: &[Expression],
    ) -> Result<(Vec<SizedType>, Estimate), Fault> {
        let mut types = Vec::with_capacity(parts.len());
        let mut estimate = Estimate::NONE;
        for part in parts {
            let found = self.expression(place, part)?;
            types.push(found.sized);
            estimate = estimate.then(found.estimate);
        }
        Ok((types, estimate))
    }

    fn under(&mut self, place: &mut Place, bound: SizedType, body: &Expression) -> Check {
        place.variables.push(bound);
        let found = self.expression(place, body);
        place.variables.pop();
        found
    }

    fn let_in(&mut self, place: &mut Place, parts: &Let) -> Check {
        let bound = self.expression(place, &parts.bound)?;
        let body = self.under(place, bound.sized, &parts.body)?;
        let estimate = bound.estimate.then(body.estimate.under(1));
        Ok(Checked::new(body.sized, estimate))
    }

    fn if_then(&mut self, place: &mut Place, parts: &If) -> Check {
        let condition = self.expression(place, &parts.condition)?;
        let then_arm = self.expression(place, &parts.then_arm)?;
        let else_arm = self.expression(place, &parts.else_arm)?;
        place.agree(then_arm.sized, else_arm.sized)?;
        let arms = then_arm.estimate.or(else_arm.estimate);
        Ok(Checked::new(then_arm.sized, condition.estimate.then(arms)))
    }

    fn operation(&mut self, place: &mut Place, parts: &Operation) -> Check {
        let left = self.expression(place, &parts.left)?;
        let right = self.expression(place, &parts.right)?;
        let operands = left.estimate.then(right.estimate);
        let sized = match parts.operator.gives_int() {
            true => SizedType::Int,
            false => SizedType::Bool,
        };
        Ok(Checked::new(sized, operands.then(Estimate::CELL)))
    }

    fn construction(&mut self, place: &mut Place, parts: &Construction) -> Check {
        let (found, estimate) = self.parts(place, &parts.fields)?;
        let type_index = parts.type_index;
        let known = self.file.constructor(type_index, parts.constructor);
        let own = own_sizes(known, &found);
        let size = sizes::in_range(1 + own as i64).ok_or(place.refuse(Refusal::SizeRange))?;
        for (field, found) in known.fields.iter().zip(&found) {
            agree_with_field(place, *field, *found)?;
        }
        let sized = SizedType::Named { type_index, size };
        Ok(Checked::new(sized, estimate.then(Estimate::CELL)))
    }

    fn adjust(&mut self, place: &mut Place, parts: &Adjust) -> Check {
        let written = sizes::value(&parts.size, &place.size_variables);
        let written = sizes::in_range(written).ok_or(place.refuse(Refusal::SizeRange))?;
        let subject = self.expression(place, &parts.subject)?;
        match subject.sized.size() <= written {
            true => {
                let sized = subject.sized.with_size(written);
                Ok(Checked::new(sized, subject.estimate))
            }
            false => Err(place.refuse(Refusal::SizesDisagree)),
        }
    }

    fn fit(&mut self, place: &mut Place, parts: &Fit) -> Check {
        let subject = self.expression(place, &parts.subject)?;
        let fitted = subject.sized.with_size(parts.size);
        let fits = self.under(place, fitted, &parts.fits)?;
        let otherwise = self.expression(place, &parts.otherwise)?;
        place.agree(fits.sized, otherwise.sized)?;
        let arms = fits.estimate.under(1).or(otherwise.estimate);
        Ok(Checked::new(fits.sized, subject.estimate.then(arms)))
    }
}

/// The summed sizes of the own-type fields.
fn own_sizes(constructor: &Constructor, found: &[SizedType]) -> usize {
    let fields = constructor.fields.iter().zip(found);
    let own = fields.filter(|(field, _)| **field == Field::Own);
    own.map(|(_, found)| found.size()).sum()
}

/// A field of another type has exactly its k.
fn agree_with_field(place: &Place, field: Field, found: SizedType) -> Result<(), Fault> {
    match field {
        Field::Named { type_index, size } => {
            place.agree(found, SizedType::Named { type_index, size })
        }
        Field::Bool | Field::Int | Field::Own => Ok(()),
    }
}
