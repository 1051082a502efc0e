//! States of a file: valid ones in any order of cells, shared or not.

use crate::random::Random;
use evaluator::limits::state_words;
use evaluator::state::{Cell, State, Tag};
use evaluator::value::Tree;
use std::collections::HashMap;
use std::rc::Rc;

/// The words of a state that holds the given values, one a channel, for a
/// board of at least the cells needed; `spare` more cells are lent.
pub fn lay_out(random: &mut Random, channels: &[Rc<Tree>], spare: u32) -> Vec<u32> {
    let share = random.one_in(2);
    let most: usize = channels.iter().map(|tree| tree.cells()).sum();
    let mut layout = Layout {
        state: State::new(vec![0; state_words(most as u32)]),
        made: HashMap::new(),
        share,
    };
    for channel in shuffled(random, channels.len()) {
        let cell = layout.make(&channels[channel]);
        layout.state.set_channel(channel, cell);
    }
    let mut words = layout.state.words().to_vec();
    words.resize(state_words(words[0] + spare), 0);
    words
}

struct Layout {
    state: State<Vec<u32>>,
    /// The cells of the trees made so far.
    made: HashMap<Rc<Tree>, u32>,
    share: bool,
}

impl Layout {
    fn make(&mut self, tree: &Rc<Tree>) -> u32 {
        match self.made.get(tree) {
            Some(known) if self.share => return *known,
            _ => (),
        }
        let cell = match &**tree {
            Tree::Bool(value) => Cell::bool(*value),
            Tree::Int(value) => Cell::int(*value),
            Tree::Construction {
                type_index,
                constructor,
                size,
                fields,
            } => {
                let fields: Vec<u32> = fields.iter().map(|field| self.make(field)).collect();
                let tag = Tag::Construction {
                    type_index: *type_index,
                    constructor: *constructor,
                };
                Cell::construction(tag, *size, &fields)
            }
        };
        let made = self
            .state
            .make(cell)
            .expect("a cell for each part of a tree");
        self.made.insert(tree.clone(), made);
        made
    }
}

fn shuffled(random: &mut Random, count: usize) -> Vec<usize> {
    let mut left: Vec<usize> = (0..count).collect();
    let mut order = Vec::with_capacity(count);
    while !left.is_empty() {
        order.push(left.swap_remove(random.below(left.len())));
    }
    order
}
