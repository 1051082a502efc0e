//! The proved library for Rust.
//!
//! [`Board`] starts a rule file, takes lines and shows the values of the channels; it owns what it needs. Below it stand the
//! library's own calls over lent buffers: [`read`], [`write()`], [`check`], [`start`] and [`iterate`], each with an [`Answer`].
//! They are safe, and those that need much real stack run on a thread of their own; those that end in `_on_this_stack` run
//! where they are called. [`find`] looks up a function at certain sizes in the list that a check left, and [`strict_text`]
//! gives the text of a rule file without what an editor adds.
//!
//! ```
//! # fn main() -> Result<(), Box<dyn std::error::Error>> {
//! let text = std::fs::read("../../examples/listing3.rules")?;
//! let mut board = paugmeln::Board::start(&text, paugmeln::Sizes::LARGEST)?;
//! board.line(b"0510001100000007\n")?;
//! assert_eq!(board.channel(2).to_string(), "0.1(7, 0.0)");
//! assert_eq!(board.numbers().to_string(), "heap 25, environment 18, stack 5");
//! # Ok(())
//! # }
//! ```

pub mod answer;
pub mod board;
pub mod checking;
pub mod finding;
mod frames;
pub mod instances;
pub mod reading;
pub mod running;
pub mod sizes;
pub mod stack;
pub mod value;
pub mod writing;

pub use answer::{Answer, Bounds, Refusal};
pub use board::Board;
pub use checking::{check, check_on_this_stack};
pub use finding::{find, place_of};
pub use instances::{instances, Instance, LIST_RECORDS};
pub use reading::read;
pub use running::{iterate, iterate_on_this_stack, start, start_on_this_stack, Loan};
pub use sizes::{Sizes, SCRATCH_WORDS, TEXT_CHARACTERS};
pub use stack::{ITERATION_STACK_NEEDED, STACK_NEEDED};
pub use value::Value;
pub use writing::{strict_text, write};
