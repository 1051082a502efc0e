//! Lent states, whole and damaged: refusal 18 exactly where document 01's
//! sentences on the state do not hold.

mod support;

use evaluator::answer::Board;
use evaluator::limits::{state_words, BOARD_SLOTS, SCRATCH_WORDS};
use evaluator::machine::{iterate, Loan};
use evaluator::state::State;
use evaluator::syntax::{Expression, Field, File, Node, PlainType, SizedType};
use evaluator::value::Tree;
use generator::build::{construction, declared, definition};
use generator::damage::{damage_state, lower_size};
use generator::files::random_file;
use generator::random::Random;
use generator::states::lay_out;
use generator::values::{random_channels, random_line};
use generator::writer;
use std::collections::HashMap;
use std::rc::Rc;
use support::lists::list_of;

/// A state read from the channels down, sentence by sentence; it shares no
/// code with the evaluator's own test but the place of each word.
struct Described<'a> {
    file: &'a File,
    state: State<&'a [u32]>,
    /// The reached cells: plain type and true size, none where they are wrong.
    reached: HashMap<u32, Option<(PlainType, usize)>>,
}

impl Described<'_> {
    fn holds(&mut self) -> bool {
        let (channels, unused) = {
            let words = self.state.channels().to_vec();
            let count = self.file.channel_count();
            (words[..count].to_vec(), words[count..].to_vec())
        };
        let room = self.state.words().len() >= state_words(self.state.used());
        if !room || unused.iter().any(|word| *word != 0) {
            return false;
        }
        let mut numbered = channels.iter().enumerate();
        numbered.all(|(channel, cell)| self.channel_holds(channel, *cell))
            && self.reached.len() == self.state.used() as usize
            && self.state.beyond().iter().all(|word| *word == 0)
    }

    fn channel_holds(&mut self, channel: usize, cell: u32) -> bool {
        match (self.value(cell), self.file.declared(channel)) {
            (Some((PlainType::Bool, _)), SizedType::Bool) => true,
            (Some((PlainType::Int, _)), SizedType::Int) => true,
            (
                Some((PlainType::Named(found), size)),
                SizedType::Named {
                    type_index,
                    size: k,
                },
            ) => found == type_index && size <= k,
            _ => false,
        }
    }

    fn value(&mut self, cell: u32) -> Option<(PlainType, usize)> {
        if cell >= self.state.used() {
            return None;
        }
        if let Some(known) = self.reached.get(&cell) {
            return *known;
        }
        let value = self.fresh_value(cell);
        self.reached.insert(cell, value);
        value
    }

    fn fresh_value(&mut self, at: u32) -> Option<(PlainType, usize)> {
        let cell = self.state.cell(at);
        let (high, low) = (cell.tag / 256, cell.tag % 256);
        if high == 0 {
            let no_fields = cell.fields.iter().all(|word| *word == 0);
            return match (low, cell.content) {
                (1, 0 | 1) if no_fields => Some((PlainType::Bool, 0)),
                (2, _) if no_fields => Some((PlainType::Int, 0)),
                _ => None,
            };
        }
        let owner = high as usize - 1;
        let constructor = self.file.types.get(owner)?.constructors.get(low as usize)?;
        let mut size = 1;
        for (place, word) in cell.fields.iter().enumerate() {
            size += match constructor.fields.get(place) {
                Some(field) if *word < at => self.field_size(*field, owner, *word)?,
                None if *word == 0 => 0,
                _ => return None,
            };
        }
        (cell.content as usize == size).then_some((PlainType::Named(owner), size))
    }

    /// What a field adds to the size of its construction.
    fn field_size(&mut self, field: Field, owner: usize, cell: u32) -> Option<usize> {
        let (plain, size) = self.value(cell)?;
        if plain != field.plain(owner) {
            return None;
        }
        match field {
            Field::Own => Some(size),
            Field::Named { size: k, .. } => (size <= k).then_some(0),
            Field::Bool | Field::Int => Some(0),
        }
    }
}

fn is_described(file: &File, words: &[u32]) -> bool {
    let mut described = Described {
        file,
        state: State::new(words),
        reached: HashMap::new(),
    };
    described.holds()
}

/// One iteration on a copy of the words; the answer's number.
fn iterated(file: &File, board: Board, words: &[u32], line: &[u8]) -> u32 {
    let mut state = words.to_vec();
    let answer = iterate(
        &writer::text(file),
        board,
        line,
        Loan {
            state: &mut state,
            scratch: &mut vec![0; SCRATCH_WORDS],
            slots: &mut vec![0; BOARD_SLOTS as usize],
        },
    );
    if answer.number != 0 {
        assert_eq!(state, words, "a refusal leaves the state unchanged");
    } else {
        let kept = &state[..state_words(board.cells)];
        assert!(
            is_described(file, kept),
            "an iteration leaves a valid state"
        );
    }
    answer.number
}

/// A state of a generated file, damaged up to twice or with a size lowered
/// under it, and one iteration on it: whether the state was as described, none
/// where no board can lend it.
fn damaged_iteration(random: &mut Random) -> Option<bool> {
    let loose = random.one_in(3);
    let mut file = random_file(random, loose);
    let channels = random_channels(random, &file, file.channel_count());
    if random.one_in(3) {
        lower_size(random, &mut file);
    }
    let spare = random.below(30) as u32;
    let mut words = lay_out(random, &channels, spare);
    let board = Board {
        cells: words[0] + spare,
        slots: random.below(30) as u32,
        calls: random.below(5) as u32,
    };
    board.within_maximum().then_some(())?;
    (0..random.below(3)).for_each(|_| damage_state(random, &mut words));
    let line = random_line(random, &file);
    let number = iterated(&file, board, &words, &line);
    let lent = words.get(..state_words(board.cells));
    let as_described = lent.is_some_and(|lent| is_described(&file, lent));
    assert_eq!(number == 18, !as_described);
    Some(as_described)
}

#[test]
fn damaged_states_are_refused_exactly_where_they_are_not_as_described() {
    let mut random = Random::new(18);
    let judged: Vec<bool> = (0..12_000)
        .filter_map(|_| damaged_iteration(&mut random))
        .collect();
    let valid = judged.iter().filter(|as_described| **as_described).count();
    assert!(valid > 2_000 && judged.len() - valid > 2_000);
}

/// A node that holds a list, and one that holds a list in a field of size `k`.
fn lists(k: usize, declared_list: usize) -> File {
    let field = Field::Named {
        type_index: 0,
        size: k,
    };
    let list = definition(&[&[], &[Field::Int, Field::Own]]);
    let nil = || construction(0, 0, vec![]);
    let kept = |at, declared, initial| Node {
        declared,
        initial,
        update: Expression::Previous(at),
    };
    File {
        types: vec![list, definition(&[&[field]])],
        nodes: vec![
            kept(0, declared(0, declared_list), nil()),
            kept(1, declared(1, 1), construction(1, 0, vec![nil()])),
        ],
        ..File::default()
    }
}

#[test]
fn a_field_above_its_k_or_a_value_above_its_declaration_is_refused() {
    let list = list_of(2);
    let held = Rc::new(Tree::Construction {
        type_index: 1,
        constructor: 0,
        size: 1,
        fields: vec![list.clone()],
    });
    let words = lay_out(&mut Random::new(1), &[list, held], 0);
    let board = Board {
        cells: words[0],
        slots: 0,
        calls: 0,
    };
    let number = |file: &File| iterated(file, board, &words, b"05\n");
    assert_eq!(number(&lists(3, 3)), 0);
    assert_eq!(number(&lists(2, 3)), 18);
    assert_eq!(number(&lists(3, 2)), 18);
}

#[test]
fn each_single_word_of_a_small_state_is_judged_as_described() {
    let file = generator::examples::listing3();
    let mut random = Random::new(19);
    let channels = random_channels(&mut random, &file, file.channel_count());
    let words = lay_out(&mut random, &channels, 2);
    let board = Board {
        cells: words[0] + 2,
        slots: 18,
        calls: 5,
    };
    let line = random_line(&mut random, &file);
    let values = [0, 1, 2, 3, 4, 5, 256, 257, 258, 512, u32::MAX];
    let places = (0..words.len()).flat_map(|at| values.map(|value| (at, value)));
    for (at, value) in places {
        let mut changed = words.clone();
        changed[at] = value;
        let number = iterated(&file, board, &changed, &line);
        assert_eq!(number == 18, !is_described(&file, &changed));
    }
}
