//! Cases: scrutinee, return type, then each branch at every split of the
//! scrutinee's size over its own-type fields.

use super::mentions::Mentions;
use super::{Check, Checked, Checker, Place};
use crate::answer::{Fault, Refusal};
use crate::estimate::Estimate;
use crate::sizes;
use crate::splits::Splits;
use crate::syntax::{Case, Constructor, Expression, Field, SizedType};
use std::collections::HashSet;

impl Checker<'_> {
    pub(super) fn case(&mut self, place: &mut Place, parts: &Case) -> Check {
        let scrutinee = self.expression(place, &parts.scrutinee)?;
        let returned = sizes::sized(&parts.return_type, &place.size_variables);
        let returned = returned.ok_or(place.refuse(Refusal::SizeRange))?;
        let mut estimate = Estimate::NONE;
        for (constructor, body) in parts.branches.iter().enumerate() {
            let branch = Branch {
                scrutinee: scrutinee.sized,
                constructor: self.file.constructor(parts.type_index, constructor),
                body,
                returned,
            };
            estimate = estimate.or(self.branch(place, branch)?);
        }
        let whole = scrutinee.estimate.then(estimate);
        Ok(Checked::new(returned, whole))
    }

    /// A branch is skipped, with nothing estimated, when the scrutinee's size
    /// is at most its number of own-type fields: it then has no split. Splits
    /// that differ only in what the body does not name have one check, for the
    /// next would enter no new instance and find the same numbers.
    fn branch(&mut self, place: &mut Place, branch: Branch) -> Result<Estimate, Fault> {
        let named = branch.named_parts(place);
        let mut seen = HashSet::new();
        let mut estimate = Estimate::NONE;
        for split in branch.splits() {
            if seen.insert(kept(&split, &named)) {
                let found = self.at_split(place, &branch, &split)?;
                estimate = estimate.or(found.under(branch.constructor.fields.len()));
            }
        }
        Ok(estimate)
    }

    fn at_split(
        &mut self,
        place: &mut Place,
        branch: &Branch,
        split: &[usize],
    ) -> Result<Estimate, Fault> {
        let variables = place.variables.len();
        let size_variables = place.size_variables.len();
        place.variables.extend(branch.field_types(split));
        place.size_variables.extend_from_slice(split);
        let body = self.expression(place, branch.body)?;
        place.agree(body.sized, branch.returned)?;
        place.variables.truncate(variables);
        place.size_variables.truncate(size_variables);
        Ok(body.estimate)
    }
}

/// The parts of a split that are named.
fn kept(split: &[usize], named: &[bool]) -> Vec<usize> {
    let parts = split.iter().zip(named).filter(|(_, named)| **named);
    parts.map(|(part, _)| *part).collect()
}

struct Branch<'a> {
    scrutinee: SizedType,
    constructor: &'a Constructor,
    body: &'a Expression,
    returned: SizedType,
}

impl Branch<'_> {
    fn splits(&self) -> Splits {
        let own_fields = self.constructor.own_fields();
        Splits::new(self.scrutinee.size() - 1, own_fields)
    }

    /// For each own-type field, whether the body names it or its size.
    fn named_parts(&self, place: &Place) -> Vec<bool> {
        let mentions = Mentions::of(self.body);
        let fields = self.constructor.fields.iter().enumerate();
        let own = fields.filter(|(_, field)| **field == Field::Own);
        let variables = own.map(|(at, _)| place.variables.len() + at);
        let first_size = place.size_variables.len();
        let numbered = variables.enumerate();
        let named = numbered.map(|(part, variable)| {
            mentions.variable(variable) || mentions.size_variable(first_size + part)
        });
        named.collect()
    }

    /// The types of the branch's variables at one split.
    fn field_types<'a>(&'a self, split: &'a [usize]) -> impl Iterator<Item = SizedType> + 'a {
        let mut own = split.iter();
        let sized = move |field: &Field| match *field {
            Field::Bool => SizedType::Bool,
            Field::Int => SizedType::Int,
            Field::Own => self.scrutinee.with_size(own.next().copied().unwrap_or(0)),
            Field::Named { type_index, size } => SizedType::Named { type_index, size },
        };
        self.constructor.fields.iter().map(sized)
    }
}
