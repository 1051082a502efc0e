//! Valid states that use every cell of the largest board, for what the check of a state costs and sees.

use crate::build::{construction, declared, definition};
use evaluator::limits::{state_words, BOARD_CELLS, FIELDS, INPUTS, LARGEST_SIZE, NODES};
use evaluator::state::{Cell, State, Tag};
use evaluator::syntax::{Expression, Field, File, Input, Node, TypeDefinition};
use evaluator::value::construction_size;

/// A file, and the words of a state of it.
pub struct FullState {
    pub name: &'static str,
    pub file: File,
    pub words: Vec<u32>,
}

/// Every channel of these files is a list, of the type that stands last; constructor 0 of each type is its empty one.
const EMPTY: usize = 0;
const FILLED: usize = 1;
const EMPTY_LIST: u32 = 0;

/// What the lists hold: the types, the cells that come first, and how a list is made one longer.
struct Lists {
    name: &'static str,
    types: Vec<TypeDefinition>,
    first: fn(&mut Filling),
    longer: fn(&mut Filling, u32) -> u32,
}

/// The cells made so far.
struct Filling {
    file: File,
    state: State<Vec<u32>>,
}

impl Filling {
    fn left(&self) -> u32 {
        BOARD_CELLS - self.state.used()
    }

    fn size(&self, cell: u32) -> usize {
        self.state.cell(cell).content as usize
    }

    fn int(&mut self) -> u32 {
        let value = self.state.used() as i32;
        self.state.make(Cell::int(value)).expect("a cell")
    }

    fn construct(&mut self, type_index: usize, constructor: usize, cells: &[u32]) -> u32 {
        let sizes: Vec<usize> = cells.iter().map(|cell| self.size(*cell)).collect();
        let size = construction_size(self.file.constructor(type_index, constructor), &sizes);
        let tag = Tag::Construction {
            type_index,
            constructor,
        };
        self.state
            .make(Cell::construction(tag, size, cells))
            .expect("a cell")
    }
}

/// As many as a constructor has fields at most: one, and another for all the rest.
fn one_and_rest<T: Copy>(one: T, rest: T) -> [T; FIELDS] {
    let mut all = [rest; FIELDS];
    all[0] = one;
    all
}

/// Lists of Ints, a cell for each.
fn ints() -> Lists {
    Lists {
        name: "lists of Ints",
        types: vec![definition(&[&[], &[Field::Int, Field::Own]])],
        first: |filling| {
            filling.construct(0, EMPTY, &[]);
        },
        longer: |filling, list| {
            let first_int = EMPTY_LIST + 1;
            let int = if filling.left() > 1 {
                filling.int()
            } else {
                first_int
            };
            filling.construct(0, FILLED, &[int, list])
        },
    }
}

/// Lists of records: nearly every cell has all fields, of a type other than its own but for a list's rest, so that sizes are compared.
fn records() -> Lists {
    let unit = Field::Named {
        type_index: 0,
        size: 1,
    };
    let record = Field::Named {
        type_index: 1,
        size: 1,
    };
    Lists {
        name: "lists of records",
        types: vec![
            definition(&[&[]]),
            definition(&[&[], &[unit; FIELDS]]),
            definition(&[&[], &one_and_rest(Field::Own, record)]),
        ],
        first: |filling| {
            filling.construct(2, EMPTY, &[]);
            filling.construct(0, EMPTY, &[]);
        },
        longer: |filling, list| {
            let unit = EMPTY_LIST + 1;
            let record = filling.construct(1, FILLED, &[unit; FIELDS]);
            filling.construct(2, FILLED, &one_and_rest(list, record))
        },
    }
}

/// Lists of trees: nearly every cell has all fields, of its own type.
fn trees() -> Lists {
    let tree = Field::Named {
        type_index: 0,
        size: LARGEST_SIZE,
    };
    Lists {
        name: "lists of trees",
        types: vec![
            definition(&[&[], &[Field::Own; FIELDS]]),
            definition(&[&[], &[Field::Own, tree]]),
        ],
        first: |filling| {
            filling.construct(1, EMPTY, &[]);
            filling.construct(0, EMPTY, &[]);
        },
        longer: |filling, list| {
            let leaf = EMPTY_LIST + 1;
            let mut tree = leaf;
            while filling.left() > 1 && filling.size(tree) + FIELDS <= LARGEST_SIZE {
                tree = filling.construct(0, FILLED, &one_and_rest(tree, leaf));
            }
            filling.construct(1, FILLED, &[list, tree])
        },
    }
}

/// A file whose channels are all lists, empty at first; its nodes keep them.
fn file_of(types: Vec<TypeDefinition>) -> File {
    let list = types.len() - 1;
    let declared = declared(list, LARGEST_SIZE);
    let initial = construction(list, EMPTY, vec![]);
    let node = |at: usize| Node {
        declared,
        initial: initial.clone(),
        update: Expression::Previous(INPUTS + at),
    };
    let input = Input {
        declared,
        initial: initial.clone(),
    };
    File {
        inputs: vec![input; INPUTS],
        nodes: (0..NODES).map(node).collect(),
        types,
        ..File::default()
    }
}

/// One list after the other as long as may be, until no cell is left.
fn filled(lists: Lists) -> FullState {
    let mut filling = Filling {
        file: file_of(lists.types),
        state: State::new(vec![0; state_words(BOARD_CELLS)]),
    };
    (lists.first)(&mut filling);
    for channel in 0..INPUTS + NODES {
        let mut list = EMPTY_LIST;
        while filling.left() > 0 && filling.size(list) < LARGEST_SIZE {
            list = (lists.longer)(&mut filling, list);
        }
        filling.state.set_channel(channel, list);
    }
    assert_eq!(filling.left(), 0, "{}", lists.name);
    FullState {
        name: lists.name,
        file: filling.file,
        words: filling.state.words().to_vec(),
    }
}

pub fn full_states() -> [FullState; 3] {
    [ints(), records(), trees()].map(filled)
}
