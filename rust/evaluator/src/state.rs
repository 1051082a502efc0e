//! The words of a state: how cells and channels are laid out.

use crate::limits::{state_words, CELL_HEAD_WORDS, CELL_WORDS, CHANNELS, FIELDS};
use crate::syntax::File;
use crate::value::Tree;
use std::rc::Rc;

const BOOL_TAG: u32 = 1;
const INT_TAG: u32 = 2;
/// A construction's tag is this times (type + 1), plus the constructor.
const TYPE_STEP: u32 = 256;

/// What a cell is, by its first word.
#[derive(Clone, Copy, Debug, PartialEq, Eq)]
pub enum Tag {
    Bool,
    Int,
    Construction {
        type_index: usize,
        constructor: usize,
    },
}

impl Tag {
    pub fn word(self) -> u32 {
        match self {
            Tag::Bool => BOOL_TAG,
            Tag::Int => INT_TAG,
            Tag::Construction {
                type_index,
                constructor,
            } => TYPE_STEP * (type_index as u32 + 1) + constructor as u32,
        }
    }

    /// The tag a word stands for in this file, none where it is invalid.
    pub fn of_word(word: u32, file: &File) -> Option<Tag> {
        match word {
            BOOL_TAG => Some(Tag::Bool),
            INT_TAG => Some(Tag::Int),
            _ => {
                let type_index = (word / TYPE_STEP).checked_sub(1)? as usize;
                let constructor = (word % TYPE_STEP) as usize;
                let definition = file.types.get(type_index)?;
                definition.constructors.get(constructor)?;
                Some(Tag::Construction {
                    type_index,
                    constructor,
                })
            }
        }
    }
}

/// A cell's words: tag, content or size, field cells.
#[derive(Clone, Copy, Debug, PartialEq, Eq)]
pub struct Cell {
    pub tag: u32,
    pub content: u32,
    pub fields: [u32; FIELDS],
}

impl Cell {
    pub fn bool(value: bool) -> Cell {
        Cell {
            tag: Tag::Bool.word(),
            content: u32::from(value),
            fields: [0; FIELDS],
        }
    }

    pub fn int(value: i32) -> Cell {
        Cell {
            tag: Tag::Int.word(),
            content: value as u32,
            fields: [0; FIELDS],
        }
    }

    pub fn construction(tag: Tag, size: usize, fields: &[u32]) -> Cell {
        let mut words = [0; FIELDS];
        words[..fields.len()].copy_from_slice(fields);
        Cell {
            tag: tag.word(),
            content: size as u32,
            fields: words,
        }
    }
}

/// The words of one board's state, or of a copy of it.
#[derive(Clone, Debug, PartialEq, Eq)]
pub struct State<W> {
    words: W,
}

impl<W: AsRef<[u32]>> State<W> {
    pub fn new(words: W) -> State<W> {
        State { words }
    }

    pub fn words(&self) -> &[u32] {
        self.words.as_ref()
    }

    pub fn used(&self) -> u32 {
        self.words()[0]
    }

    /// The words of the channels, unused ones included.
    pub fn channels(&self) -> &[u32] {
        &self.words()[1..=CHANNELS]
    }

    pub fn cell(&self, at: u32) -> Cell {
        let start = cell_start(at);
        let words = &self.words()[start..start + CELL_WORDS];
        let mut fields = [0; FIELDS];
        fields.copy_from_slice(&words[CELL_HEAD_WORDS..]);
        Cell {
            tag: words[0],
            content: words[1],
            fields,
        }
    }

    /// The words beyond the used cells.
    pub fn beyond(&self) -> &[u32] {
        &self.words()[cell_start(self.used())..]
    }

    /// The value written out from a cell of a valid state.
    pub fn tree(&self, file: &File, at: u32) -> Rc<Tree> {
        let cell = self.cell(at);
        Rc::new(match Tag::of_word(cell.tag, file) {
            Some(Tag::Construction {
                type_index,
                constructor,
            }) => {
                let count = file.constructor(type_index, constructor).fields.len();
                let fields = cell.fields[..count].iter();
                Tree::Construction {
                    type_index,
                    constructor,
                    size: cell.content as usize,
                    fields: fields.map(|field| self.tree(file, *field)).collect(),
                }
            }
            Some(Tag::Bool) => Tree::Bool(cell.content != 0),
            Some(Tag::Int) | None => Tree::Int(cell.content as i32),
        })
    }
}

impl<W: AsRef<[u32]> + AsMut<[u32]>> State<W> {
    pub fn clear(&mut self) {
        self.words.as_mut().fill(0);
    }

    pub fn set_used(&mut self, used: u32) {
        self.words.as_mut()[0] = used;
    }

    pub fn set_channel(&mut self, channel: usize, cell: u32) {
        self.words.as_mut()[1 + channel] = cell;
    }

    pub fn set_cell(&mut self, at: u32, cell: Cell) {
        let start = cell_start(at);
        let words = &mut self.words.as_mut()[start..start + CELL_WORDS];
        words[0] = cell.tag;
        words[1] = cell.content;
        words[CELL_HEAD_WORDS..].copy_from_slice(&cell.fields);
    }

    /// Makes the next cell; none where no cell is free.
    pub fn make(&mut self, cell: Cell) -> Option<u32> {
        let at = self.used();
        if cell_start(at + 1) > self.words().len() {
            return None;
        }
        self.set_cell(at, cell);
        self.set_used(at + 1);
        Some(at)
    }

    /// Makes the cells of a tree, fields left to right before their
    /// construction, nothing shared.
    pub fn make_tree(&mut self, tree: &Tree) -> Option<u32> {
        let cell = match tree {
            Tree::Bool(value) => Cell::bool(*value),
            Tree::Int(value) => Cell::int(*value),
            Tree::Construction {
                type_index,
                constructor,
                size,
                fields,
            } => {
                let mut cells = Vec::with_capacity(fields.len());
                for field in fields {
                    cells.push(self.make_tree(field)?);
                }
                let tag = Tag::Construction {
                    type_index: *type_index,
                    constructor: *constructor,
                };
                Cell::construction(tag, *size, &cells)
            }
        };
        self.make(cell)
    }
}

/// A cell starts where a state of the cells below it ends.
fn cell_start(at: u32) -> usize {
    state_words(at)
}
