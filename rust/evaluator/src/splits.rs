//! Splits of a size into positive sizes, in ascending dictionary order.

/// The next split of the same total into as many parts, none after the last.
/// The first part changes slowest.
fn advance(split: &mut [usize]) -> bool {
    let Some(last) = split.len().checked_sub(1) else {
        return false;
    };
    // The rightmost part that can grow has something above 1 to its right.
    let Some(spare) = (1..=last).rev().find(|at| split[*at] > 1) else {
        return false;
    };
    let rest = split[spare] - 1;
    split[spare - 1] += 1;
    split[spare] = 1;
    split[last] = rest;
    true
}

/// All splits of `total` into `parts` positive sizes. No part at all has one
/// split, whatever the total: a branch without own-type fields is checked once.
pub struct Splits {
    next: Option<Vec<usize>>,
}

impl Splits {
    pub fn new(total: usize, parts: usize) -> Splits {
        if parts == 0 {
            return Splits {
                next: Some(Vec::new()),
            };
        }
        if total < parts {
            return Splits { next: None };
        }
        let mut first = vec![1; parts];
        first[parts - 1] = total - (parts - 1);
        Splits { next: Some(first) }
    }
}

impl Iterator for Splits {
    type Item = Vec<usize>;

    fn next(&mut self) -> Option<Vec<usize>> {
        let current = self.next.take()?;
        let mut following = current.clone();
        if advance(&mut following) {
            self.next = Some(following);
        }
        Some(current)
    }
}

#[cfg(test)]
mod tests {
    use super::*;

    #[test]
    fn splits_ascend_in_dictionary_order() {
        let splits: Vec<_> = Splits::new(5, 3).collect();
        let expected = [
            [1, 1, 3],
            [1, 2, 2],
            [1, 3, 1],
            [2, 1, 2],
            [2, 2, 1],
            [3, 1, 1],
        ];
        assert_eq!(splits, expected);
    }

    #[test]
    fn a_branch_without_own_fields_has_one_split_and_a_skipped_one_none() {
        assert_eq!(Splits::new(4, 0).count(), 1);
        assert_eq!(Splits::new(0, 0).count(), 1);
        assert_eq!(Splits::new(2, 3).count(), 0);
        assert_eq!(Splits::new(63, 4).count(), 37_820);
    }
}
