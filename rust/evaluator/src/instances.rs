//! The lent list of instances. Instance is document 01's word for a function
//! with the sizes of its named arguments.

use crate::estimate::Estimate;
use crate::limits::{INSTANCES, PARAMETERS};

/// One record. An unused record is zero in every part.
#[derive(Clone, Copy, Debug, Default, PartialEq, Eq)]
pub struct Instance {
    /// The function's index plus 1, so that no record in use is all zero.
    function: u32,
    /// The sizes of the named arguments, the rest 0.
    sizes: [u8; PARAMETERS],
    environment: u32,
    heap: u32,
    stack: u32,
}

impl Instance {
    fn new(function: usize, arguments: &[usize]) -> Instance {
        let mut sizes = [0; PARAMETERS];
        for (place, size) in sizes.iter_mut().zip(arguments) {
            *place = *size as u8;
        }
        Instance {
            function: function as u32 + 1,
            sizes,
            ..Instance::default()
        }
    }

    /// The function's index; none in an unused record.
    pub fn function(&self) -> Option<u32> {
        self.function.checked_sub(1)
    }

    /// The sizes of its named arguments; every size is at least 1.
    pub fn sizes(&self) -> impl Iterator<Item = u8> + '_ {
        self.sizes.iter().copied().take_while(|size| *size > 0)
    }

    /// The numbers of its body.
    pub fn estimate(&self) -> Estimate {
        Estimate {
            environment: self.environment,
            heap: self.heap,
            stack: self.stack,
        }
    }
}

/// The list as far as it is filled, in order of entry.
pub struct InstanceList<'a> {
    records: &'a mut [Instance],
    used: usize,
}

impl<'a> InstanceList<'a> {
    /// Starts an empty list in `records`, which is cleared.
    pub fn new(records: &'a mut [Instance]) -> InstanceList<'a> {
        records.fill(Instance::default());
        InstanceList { records, used: 0 }
    }

    pub fn find(&self, function: usize, sizes: &[usize]) -> Option<Estimate> {
        let wanted = Instance::new(function, sizes);
        let same =
            |record: &&Instance| record.function == wanted.function && record.sizes == wanted.sizes;
        let found = self.records[..self.used].iter().find(same);
        found.map(Instance::estimate)
    }

    /// The place of a new record; none where it would be one too many.
    pub fn add(&mut self, function: usize, sizes: &[usize]) -> Option<usize> {
        if self.used >= INSTANCES {
            return None;
        }
        let place = self.used;
        self.records[place] = Instance::new(function, sizes);
        self.used += 1;
        Some(place)
    }

    pub fn record(&mut self, place: usize, estimate: Estimate) {
        let record = &mut self.records[place];
        record.environment = estimate.environment;
        record.heap = estimate.heap;
        record.stack = estimate.stack;
    }
}
