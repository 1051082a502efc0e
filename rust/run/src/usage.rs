//! How much of a board the lines use.
//!
//! The proved iteration does not say how many cells, slots and calls it took. So it is found by trying: the least number of
//! each with which the same line, in the same state, is still taken, while of the other two as much is lent as the file needs.

use paugmeln::{Board, Sizes};

/// The most that was used so far.
pub struct Usage {
    needed: Sizes,
    most: Sizes,
}

impl Usage {
    /// A start takes the cells that it keeps.
    pub fn new(board: &Board) -> Usage {
        Usage {
            needed: board.numbers().into(),
            most: Sizes {
                cells: board.cells_kept(),
                slots: 0,
                calls: 0,
            },
        }
    }

    pub fn most(&self) -> Sizes {
        self.most
    }

    /// Looks what a line takes that the board is about to take. Only a line that takes more than those before it is tried
    /// more than once.
    pub fn note(&mut self, board: &Board, line: &[u8]) {
        let takes = |sizes| board.try_line(line, sizes).is_ok();
        if takes(self.most) || !takes(self.needed) {
            return;
        }
        let Usage { needed, most } = *self;
        self.most = Sizes {
            // Never fewer than the state holds: it holds what an earlier line used at most.
            cells: least(most.cells, needed.cells, |cells| {
                takes(Sizes { cells, ..needed })
            }),
            slots: least(most.slots, needed.slots, |slots| {
                takes(Sizes { slots, ..needed })
            }),
            calls: least(most.calls, needed.calls, |calls| {
                takes(Sizes { calls, ..needed })
            }),
        };
    }
}

/// The least number from `low` to `high` that is enough; `high` is, and so is every number above one that is.
fn least(mut low: u32, mut high: u32, enough: impl Fn(u32) -> bool) -> u32 {
    while low < high {
        let middle = low + (high - low) / 2;
        match enough(middle) {
            true => high = middle,
            false => low = middle + 1,
        }
    }
    low
}

#[cfg(test)]
mod tests {
    use super::*;

    #[test]
    fn the_least_is_found_wherever_it_is() {
        for wanted in 3..=12 {
            assert_eq!(least(3, 12, |number| number >= wanted), wanted);
        }
        assert_eq!(least(5, 5, |_| true), 5);
    }

    #[test]
    fn a_line_that_is_refused_uses_nothing() {
        let text = b"03011100000000\n04011100000000170014011300\n";
        let board = Board::start(text, Sizes::LARGEST).expect("an accepted file");
        let mut usage = Usage::new(&board);
        usage.note(&board, b"05\n");
        assert_eq!(usage.most().cells, 2);
        usage.note(&board, b"051100000005\n");
        assert_eq!(usage.most().cells, 4);
    }
}
