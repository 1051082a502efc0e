//! Calls: arguments, conditions, the measure of a self-call, the result size,
//! then the body if that instance was not entered before.

use super::{Check, Checked, Checker, Place};
use crate::answer::{Fault, Refusal};
use crate::estimate::Estimate;
use crate::sizes;
use crate::syntax::{Call, Function, SizedType};

impl Checker<'_> {
    pub(super) fn call(&mut self, place: &mut Place, parts: &Call) -> Check {
        let function = parts.function;
        let (found, before) = self.parts(place, &parts.arguments)?;
        let called = &self.file.functions[function];
        let named = named_sizes(&found);
        if !called
            .conditions
            .iter()
            .all(|condition| sizes::holds(condition, &named))
        {
            return Err(place.refuse(Refusal::Condition));
        }
        let measure = sizes::measure(&called.measure, &named);
        if place.function == Some(function) && measure >= place.measure {
            return Err(place.refuse(Refusal::Measure));
        }
        let frame = self.file.function_frame(function);
        let result = sizes::sized(&called.result, &named);
        let result = result.ok_or(Refusal::SizeRange.in_frame(frame))?;
        let body = match self.instances.find(function, &named) {
            Some(known) => known,
            None => self.enter(place, function, found, result)?,
        };
        let estimate = before.then(body.called()).under(parts.arguments.len());
        Ok(Checked::new(result, estimate))
    }

    /// Checks the body of a new instance and records its numbers.
    fn enter(
        &mut self,
        caller: &Place,
        function: usize,
        arguments: Vec<SizedType>,
        result: SizedType,
    ) -> Result<Estimate, Fault> {
        let called = &self.file.functions[function];
        let frame = self.file.function_frame(function);
        let mut place = body_place(frame, function, called, arguments);
        let record = self
            .instances
            .add(function, &place.size_variables)
            .ok_or(caller.refuse(Refusal::InstanceCount))?;
        let body = self.expression(&mut place, &called.body)?;
        place.agree(body.sized, result)?;
        self.instances.record(record, body.estimate);
        Ok(body.estimate)
    }
}

fn body_place(
    frame: usize,
    function: usize,
    called: &Function,
    arguments: Vec<SizedType>,
) -> Place {
    let size_variables = named_sizes(&arguments);
    Place {
        frame,
        function: Some(function),
        measure: sizes::measure(&called.measure, &size_variables),
        size_variables,
        variables: arguments,
    }
}

/// The sizes of the named arguments, which are the callee's size variables.
fn named_sizes(arguments: &[SizedType]) -> Vec<usize> {
    let named = |argument: &SizedType| match argument {
        SizedType::Named { size, .. } => Some(*size),
        SizedType::Bool | SizedType::Int => None,
    };
    arguments.iter().filter_map(named).collect()
}
