//! The proved look-up in a list of instances.

use crate::instances::Instance;

extern "C" {
    fn paugmeln_find(list: *const Instance, records: usize, key: Instance) -> usize;
}

/// The place of the first record of a list that has the function and the sizes of the key, all eight of them; where there is
/// none, the list's length. The three numbers of the key do not count.
pub fn place_of(list: &[Instance], key: Instance) -> usize {
    // SAFETY: the list is lent for reading together with its length, the key is a copy, and the function asks for nothing
    // else.
    unsafe { paugmeln_find(list.as_ptr(), list.len(), key) }
}

/// The place of the first record of a list that has this function and these sizes; the unused ones, which are 0, may be left
/// out. There is none with more than [`SIZES`](crate::instances::SIZES).
///
/// An empty record looks like one of function 0 without sizes. So the list is that of the records in use, which
/// [`instances`](crate::instances()) gives.
///
/// ```
/// # fn main() -> Result<(), Box<dyn std::error::Error>> {
/// use paugmeln::{Instance, Sizes, LIST_RECORDS};
///
/// let text = std::fs::read("../../examples/listing3.rules")?;
/// let mut list = vec![Instance::EMPTY; LIST_RECORDS];
/// paugmeln::check(&text, Sizes::LARGEST, &mut list);
/// let entered = paugmeln::instances(&list);
/// assert_eq!(paugmeln::find(entered, 1, &[5]), Some(5));
/// assert_eq!(paugmeln::find(entered, 1, &[6]), None);
/// assert_eq!(paugmeln::find(entered, 0, &[]), None);
/// assert_eq!(paugmeln::find(&list, 0, &[]), Some(10)); // an empty record
/// # Ok(())
/// # }
/// ```
pub fn find(list: &[Instance], function: u32, sizes: &[u32]) -> Option<usize> {
    let place = place_of(list, key(function, sizes)?);
    (place < list.len()).then_some(place)
}

/// A record to look for; none with too many sizes.
fn key(function: u32, sizes: &[u32]) -> Option<Instance> {
    let mut key = Instance {
        function,
        ..Instance::EMPTY
    };
    key.sizes.get_mut(..sizes.len())?.copy_from_slice(sizes);
    Some(key)
}
