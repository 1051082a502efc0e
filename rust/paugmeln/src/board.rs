//! A board that owns its buffers.

use crate::answer::{Bounds, Refusal};
use crate::checking::check;
use crate::finding::find;
use crate::frames::{self, Kind};
use crate::instances::{instances, Instance, LIST_RECORDS};
use crate::running::{iterate, start, Loan};
use crate::sizes::{Sizes, SCRATCH_WORDS};
use crate::value::Value;
use crate::writing::strict_text;

/// An accepted rule file that runs: it takes lines, and holds the values of the channels.
///
/// Inputs 5 and then 7 make the node of this file 5, then 12:
///
/// ```
/// # fn main() -> Result<(), paugmeln::Refusal> {
/// use paugmeln::{Board, Sizes, Value};
///
/// let text = b"03011100000000\n04011100000000170014011300\n";
/// let mut board = Board::start(text, Sizes::LARGEST)?;
/// board.line(b"051100000005\n")?;
/// assert_eq!(board.channel(1), Value::Int(5));
/// board.line(b"051100000007\n")?;
/// assert_eq!(board.channel(1).to_string(), "Int 12");
/// assert_eq!((board.cells_kept(), board.cells_stated()), (2, 2));
/// # Ok(())
/// # }
/// ```
///
/// Every file that is accepted answers each line by taking it or with refusal 19, whatever it holds; the board is then as it
/// was:
///
/// ```
/// # use paugmeln::{Board, Sizes, Value};
/// # let text = b"03011100000000\n04011100000000170014011300\n";
/// # let mut board = Board::start(text, Sizes::LARGEST).unwrap();
/// let refusal = board.line(b"05 1100000005\n").unwrap_err();
/// assert_eq!(refusal.number, 19);
/// assert_eq!(refusal.to_string(), "refusal 19: the input line is wrong");
/// assert_eq!(board.channel(1), Value::Int(0));
/// ```
#[derive(Clone, Debug)]
pub struct Board {
    /// The strict text of the file, which answers as the file does.
    text: Vec<u8>,
    sizes: Sizes,
    bounds: Bounds,
    field_counts: Vec<Vec<usize>>,
    inputs: usize,
    channels: usize,
    list: Vec<Instance>,
    buffers: Buffers,
}

#[derive(Clone, Debug)]
struct Buffers {
    state: Vec<u32>,
    scratch: Vec<u32>,
    slots: Vec<u32>,
}

impl Buffers {
    /// As long as the board asks. One over the maximum is refused whatever is lent, so no more is lent than the largest
    /// asks.
    fn new(sizes: Sizes) -> Buffers {
        let lent = sizes.at_most_largest();
        Buffers {
            state: vec![0; lent.state_words()],
            scratch: vec![0; SCRATCH_WORDS],
            slots: vec![0; lent.slot_words()],
        }
    }

    fn loan(&mut self) -> Loan<'_> {
        Loan {
            state: &mut self.state,
            scratch: &mut self.scratch,
            slots: &mut self.slots,
        }
    }
}

impl Board {
    /// Checks a rule file against a board of these sizes, and gives the channels their initial values.
    ///
    /// ```
    /// use paugmeln::{Board, Sizes};
    ///
    /// let text = b"03011100000000\n04011100000000170014011300\n";
    /// let small = Sizes { cells: 3, slots: 0, calls: 0 };
    /// let refusal = Board::start(text, small).unwrap_err();
    /// assert_eq!((refusal.number, refusal.bounds.heap), (15, 4));
    /// assert!(Board::start(text, refusal.bounds.into()).is_ok());
    /// ```
    ///
    /// # Panics
    ///
    /// Where the system has no room for a thread with the stack that is needed; so do the other calls.
    pub fn start(text: &[u8], sizes: Sizes) -> Result<Board, Refusal> {
        let mut list = vec![Instance::EMPTY; LIST_RECORDS];
        let mut buffers = Buffers::new(sizes);
        let bounds = start(text, sizes, &mut list, buffers.loan()).result()?;
        let text = strict_text(text)?;
        let inputs = frames::count(&text, Kind::Input);
        Ok(Board {
            sizes,
            bounds,
            field_counts: frames::field_counts(&text),
            inputs,
            channels: inputs + frames::count(&text, Kind::Node),
            text,
            list,
            buffers,
        })
    }

    /// Takes one input line, its line feed included. Where it is refused nothing changes.
    pub fn line(&mut self, line: &[u8]) -> Result<(), Refusal> {
        let answer = iterate(&self.text, self.sizes, line, self.buffers.loan());
        answer.result().map(|_| ())
    }

    /// What a board of other sizes would answer to a line in the present state; this one does not take it.
    ///
    /// With more cells than this board has, or with fewer than it keeps, the answer is 18.
    ///
    /// ```
    /// # use paugmeln::{Board, Sizes};
    /// # let text = b"03011100000000\n04011100000000170014011300\n";
    /// # let board = Board::start(text, Sizes::LARGEST).unwrap();
    /// let line = b"051100000005\n";
    /// let cells = |cells| Sizes { cells, slots: 0, calls: 0 };
    /// assert!(board.try_line(line, cells(4)).is_ok());
    /// assert_eq!(board.try_line(line, cells(3)).unwrap_err().number, 20);
    /// ```
    pub fn try_line(&self, line: &[u8], sizes: Sizes) -> Result<(), Refusal> {
        let mut buffers = self.buffers.clone();
        buffers
            .slots
            .resize(sizes.at_most_largest().slot_words(), 0);
        let answer = iterate(&self.text, sizes, line, buffers.loan());
        answer.result().map(|_| ())
    }

    /// The value of a channel; inputs are counted first, then nodes, from 0.
    ///
    /// # Panics
    ///
    /// Where there is no such channel.
    pub fn channel(&self, channel: usize) -> Value {
        assert!(channel < self.channels, "there is no channel {channel}");
        let state = &self.buffers.state;
        Value::of_cell(state, state[1 + channel], &self.field_counts)
    }

    /// How many channels there are.
    pub fn channel_count(&self) -> usize {
        self.channels
    }

    /// How many of the channels are inputs; they come first.
    pub fn input_count(&self) -> usize {
        self.inputs
    }

    /// The cells that the values of the channels take, each counted once.
    pub fn cells_kept(&self) -> u32 {
        self.buffers.state[0]
    }

    /// The most that [`cells_kept`](Board::cells_kept) can become: the cells of all channels.
    ///
    /// It is asked of the proved checker: a file of the same types and one channel, kept by a node, needs as much heap as
    /// the channel has cells. So this takes a check for each channel.
    pub fn cells_stated(&self) -> u32 {
        let mut list = vec![Instance::EMPTY; LIST_RECORDS];
        let files = frames::channels_alone(&self.text).into_iter();
        files
            .map(|file| check(&file, Sizes::LARGEST, &mut list).heap)
            .sum()
    }

    /// Heap, environment and stack needed.
    pub fn numbers(&self) -> Bounds {
        self.bounds
    }

    /// What the board was started with.
    pub fn sizes(&self) -> Sizes {
        self.sizes
    }

    /// The instances that the checker entered; see [`instances`].
    pub fn instances(&self) -> &[Instance] {
        instances(&self.list)
    }

    /// The instance of a function at these sizes of its named arguments, if the checker entered it; see [`find`].
    ///
    /// Function 0 of listing 3 puts a value behind a list. It is called with a list of size 4, never with one of size 5:
    ///
    /// ```
    /// # fn main() -> Result<(), Box<dyn std::error::Error>> {
    /// use paugmeln::{Board, Sizes};
    ///
    /// let text = std::fs::read("../../examples/listing3.rules")?;
    /// let board = Board::start(&text, Sizes::LARGEST)?;
    /// let insert = board.instance(0, &[4]).ok_or("not entered")?;
    /// assert_eq!((insert.environment, insert.heap, insert.stack), (12, 5, 3));
    /// assert_eq!(board.instance(0, &[5]), None);
    /// # Ok(())
    /// # }
    /// ```
    ///
    /// The one instance that [`instances`] may leave out is not found either.
    pub fn instance(&self, function: u32, sizes: &[u32]) -> Option<&Instance> {
        let entered = self.instances();
        find(entered, function, sizes).map(|place| &entered[place])
    }

    /// The words of the state, laid out as docs/FORMAT.md says.
    pub fn state(&self) -> &[u32] {
        &self.buffers.state
    }
}
