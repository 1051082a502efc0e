//! The limits of document 01, each named once.

/// Characters of a rule file.
pub const TEXT_CHARACTERS: usize = 16_384;

/// Frames of each kind.
pub const TYPES: usize = 8;
pub const FUNCTIONS: usize = 32;
pub const INPUTS: usize = 8;
pub const NODES: usize = 16;
/// Channels, document 01's word for inputs and nodes, inputs counted first.
pub const CHANNELS: usize = INPUTS + NODES;

/// Counts inside a frame.
pub const CONSTRUCTORS: usize = 8;
pub const FIELDS: usize = 4;
pub const PARAMETERS: usize = 8;
pub const CONDITIONS: usize = 8;
pub const MEASURES: usize = 8;

/// The size of a type lies between these.
pub const LEAST_SIZE: usize = 1;
pub const LARGEST_SIZE: usize = 64;

/// What may stand in scope, and how deep expressions and sizes may nest.
pub const VARIABLES: usize = 32;
pub const SIZE_VARIABLES: usize = 8;
pub const NESTING: usize = 32;

/// Instances, document 01's word for a function with the sizes of its named
/// arguments, that one file may enter.
pub const INSTANCES: usize = 1_024;

/// Reported numbers stop here.
pub const LARGEST_NUMBER: u32 = 65_535;

/// The largest board.
pub const BOARD_CELLS: u32 = 2_048;
pub const BOARD_SLOTS: u32 = 256;
pub const BOARD_CALLS: u32 = 64;

/// The words of a state before its cells: the cells used, then one a channel.
pub const HEADER_WORDS: usize = 1 + CHANNELS;
/// The words of a cell before its fields: the tag, then content or size.
pub const CELL_HEAD_WORDS: usize = 2;
/// The words of one cell.
pub const CELL_WORDS: usize = CELL_HEAD_WORDS + FIELDS;

/// Words of scratch, one a cell of the largest board.
pub const SCRATCH_WORDS: usize = BOARD_CELLS as usize;

/// The words of a state for a board of `cells` cells.
pub fn state_words(cells: u32) -> usize {
    HEADER_WORDS + CELL_WORDS * cells as usize
}
