//! Sizes at every instance that a node reaches (refusals 10 to 14), with the
//! estimation of figure 7, and the bounds that follow.

mod calls;
mod cases;
mod expressions;
mod mentions;

use crate::answer::{Bounds, Fault, Refusal};
use crate::cells::CellTable;
use crate::estimate::{sum, Estimate};
use crate::instances::InstanceList;
use crate::syntax::{Expression, File, SizedType};

/// A checked expression: its type with the size, and its three numbers.
#[derive(Clone, Copy, Debug, PartialEq, Eq)]
pub struct Checked {
    pub sized: SizedType,
    pub estimate: Estimate,
}

impl Checked {
    fn new(sized: SizedType, estimate: Estimate) -> Checked {
        Checked { sized, estimate }
    }
}

type Check = Result<Checked, Fault>;

/// What the place of an expression knows: whose frame it stands in, which
/// function's body it is part of, and what is bound.
struct Place {
    frame: usize,
    function: Option<usize>,
    /// The summed measure of the instance whose body this is.
    measure: usize,
    size_variables: Vec<usize>,
    variables: Vec<SizedType>,
}

impl Place {
    /// A channel's expression: nothing bound, no function around it.
    fn of_channel(frame: usize) -> Place {
        Place {
            frame,
            function: None,
            measure: 0,
            size_variables: Vec::new(),
            variables: Vec::new(),
        }
    }

    fn refuse(&self, refusal: Refusal) -> Fault {
        refusal.in_frame(self.frame)
    }

    /// Plain types agree after refusal 9, so only sizes can disagree here.
    fn agree(&self, left: SizedType, right: SizedType) -> Result<(), Fault> {
        match left == right {
            true => Ok(()),
            false => Err(self.refuse(Refusal::SizesDisagree)),
        }
    }
}

struct Checker<'a> {
    file: &'a File,
    instances: InstanceList<'a>,
}

/// Checks all sizes and gives heap, environment and stack needed: initial
/// values first, in channel order, then updates in node order.
pub fn check(file: &File, instances: InstanceList) -> Result<Bounds, Fault> {
    let mut checker = Checker { file, instances };
    let mut initial = 0..file.channel_count();
    initial.try_for_each(|at| checker.channel(at, file.initial(at)).map(drop))?;
    let updates = file.nodes.iter().enumerate();
    let updates: Result<Vec<Estimate>, Fault> = updates
        .map(|(at, node)| checker.channel(file.node_channel(at), &node.update))
        .collect();
    Ok(bounds(file, &updates?))
}

impl Checker<'_> {
    /// An initial value or update, which agrees with the channel exactly.
    fn channel(&mut self, channel: usize, expression: &Expression) -> Result<Estimate, Fault> {
        let mut place = Place::of_channel(self.file.channel_frame(channel));
        let found = self.expression(&mut place, expression)?;
        place.agree(found.sized, self.file.declared(channel))?;
        Ok(found.estimate)
    }
}

/// Heap needed: cells of all channels, cells of the inputs again, and the
/// nodes' heap estimates summed. Environment and stack: the largest.
fn bounds(file: &File, updates: &[Estimate]) -> Bounds {
    let table = CellTable::new(&file.types);
    let channels = (0..file.channel_count()).map(|at| table.of(file.declared(at)));
    let inputs = file.inputs.iter().map(|input| table.of(input.declared));
    let updated = updates.iter().map(|estimate| estimate.heap);
    let largest = updates.iter().copied().fold(Estimate::NONE, Estimate::or);
    Bounds {
        heap: channels.chain(inputs).chain(updated).fold(0, sum),
        environment: largest.environment,
        stack: largest.stack,
    }
}
