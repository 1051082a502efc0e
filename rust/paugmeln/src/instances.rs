//! The lent list of instances.

/// Sizes that a record has room for: a function has at most so many parameters.
pub const SIZES: usize = 8;

/// The least that is lent: a record for each instance that a file may enter.
pub const LIST_RECORDS: usize = 1_024;

/// A record of the list: a function with the sizes of its named arguments, unused ones 0, and the three numbers of its body
/// there. docs/FORMAT.md has its bytes.
#[repr(C)]
#[derive(Clone, Copy, Debug, PartialEq, Eq)]
pub struct Instance {
    pub function: u32,
    pub sizes: [u32; SIZES],
    pub environment: u32,
    pub heap: u32,
    pub stack: u32,
}

// What the library takes a record to be.
const _: () = assert!(size_of::<Instance>() == 48 && align_of::<Instance>() == 4);

impl Instance {
    /// The record behind those in use: 0 throughout.
    pub const EMPTY: Instance = Instance {
        function: 0,
        sizes: [0; SIZES],
        environment: 0,
        heap: 0,
        stack: 0,
    };
}

/// The instances of an accepted file in order of entry: the list as far as its last record that is not empty.
///
/// One instance can be 0 throughout: function 0 without named parameters, where its body's numbers are 0. Before others
/// it is seen, as only the rest of the list is unused. Entered last it cannot be told from an empty record, and is left
/// out here; a caller who knows from the file that it was entered adds it.
pub fn instances(list: &[Instance]) -> &[Instance] {
    let last = list.iter().rposition(|record| *record != Instance::EMPTY);
    &list[..last.map_or(0, |at| at + 1)]
}

#[cfg(test)]
mod tests {
    use super::*;

    const OTHER: Instance = Instance {
        function: 1,
        sizes: [5, 0, 0, 0, 0, 0, 0, 0],
        environment: 4,
        heap: 3,
        stack: 2,
    };

    fn listed(used: &[Instance]) -> Vec<Instance> {
        let mut list = used.to_vec();
        list.resize(LIST_RECORDS, Instance::EMPTY);
        list
    }

    #[test]
    fn a_record_of_zeros_is_seen_before_others_and_not_at_the_end() {
        let zeros = Instance::EMPTY;
        assert_eq!(instances(&listed(&[zeros, OTHER])), [zeros, OTHER]);
        assert_eq!(instances(&listed(&[OTHER, zeros])), [OTHER]);
        assert_eq!(instances(&listed(&[])), []);
    }

    #[test]
    fn a_full_list_is_seen_whole() {
        let full = [OTHER; LIST_RECORDS];
        assert_eq!(instances(&listed(&full)), full);
    }
}
