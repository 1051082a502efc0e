//! The proved look-up gives the place that a plain search gives, on lists of anything and on those that checks leave.

use evaluator::stack::with_deep_stack;
use generator::mixture::Mixture;
use generator::random::Random;
use generator::writer;
use paugmeln::instances::SIZES;
use paugmeln::{find, instances, place_of, Board, Instance, Sizes, LIST_RECORDS};
use replay::engine::filled;
use std::collections::BTreeSet;

const LISTS: usize = 2_000;
const KEYS_OF_A_LIST: usize = 20;
const GENERATED_FILES: usize = 300;

/// Words of a record: those that are looked for, and all.
const KEY_WORDS: usize = 1 + SIZES;
const WORDS: usize = KEY_WORDS + 3;

fn word_of(record: &mut Instance, word: usize) -> &mut u32 {
    let Instance {
        function,
        sizes,
        environment,
        heap,
        stack,
    } = record;
    let words = [function].into_iter().chain(sizes);
    let mut words = words.chain([environment, heap, stack]);
    words.nth(word).expect("a word of the record")
}

/// The record with one word set to a number.
fn with_word(mut record: Instance, word: usize, number: u32) -> Instance {
    *word_of(&mut record, word) = number;
    record
}

/// The same function and sizes with other numbers.
fn with_numbers(random: &mut Random, record: Instance) -> Instance {
    let numbers = KEY_WORDS..WORDS;
    numbers.fold(record, |record, word| {
        with_word(record, word, random.number() as u32)
    })
}

/// A number that is often the same, and often 0.
fn number(random: &mut Random) -> u32 {
    *random.pick(&[0, 0, 1, 2, 64, 1 << 16, 1 << 31, u32::MAX])
}

fn fresh(random: &mut Random) -> Instance {
    let words = 0..random.between(0, WORDS);
    words.fold(Instance::EMPTY, |record, word| {
        with_word(record, word, number(random))
    })
}

/// How a key stands to its list.
#[derive(Clone, Copy, Debug, PartialEq, Eq, PartialOrd, Ord)]
enum Key {
    /// A record of it with other numbers.
    Known,
    /// The same with another last size.
    OtherLastSize,
    /// The same with another word somewhere.
    OtherWord,
    /// Function 0 without sizes.
    Zero,
    Fresh,
}

impl Key {
    const ALL: [Key; 5] = [
        Key::Known,
        Key::OtherLastSize,
        Key::OtherWord,
        Key::Zero,
        Key::Fresh,
    ];

    /// Such a key. That of an empty list is changed from an empty record.
    fn of(self, random: &mut Random, list: &[Instance]) -> Instance {
        let known = random.try_pick(list).copied().unwrap_or(Instance::EMPTY);
        let record = match self {
            Key::Known => known,
            Key::OtherLastSize => with_word(known, KEY_WORDS - 1, number(random)),
            Key::OtherWord => with_word(known, random.below(KEY_WORDS), number(random)),
            Key::Zero => Instance::EMPTY,
            Key::Fresh => fresh(random),
        };
        with_numbers(random, record)
    }
}

fn any_key(random: &mut Random, list: &[Instance]) -> (Key, Instance) {
    let kind = *random.pick(&Key::ALL);
    (kind, kind.of(random, list))
}

/// A list whose records are often like earlier ones.
fn generated_list(random: &mut Random) -> Vec<Instance> {
    let records = *random.pick(&[0, 1, 2, 3, 10, 60]);
    let mut list = vec![];
    for _ in 0..records {
        let (_, record) = any_key(random, &list);
        list.push(record);
    }
    list
}

fn is_of(key: Instance) -> impl Fn(&Instance) -> bool {
    move |record| record.function == key.function && record.sizes == key.sizes
}

fn plain_place(list: &[Instance], key: Instance) -> usize {
    let place = list.iter().position(is_of(key));
    place.unwrap_or(list.len())
}

/// Both calls beside the plain search.
fn compare(list: &[Instance], key: Instance) {
    let place = plain_place(list, key);
    assert_eq!(place_of(list, key), place, "{key:?} in {list:?}");
    let found = find(list, key.function, &key.sizes);
    assert_eq!(found, (place < list.len()).then_some(place));
}

/// How many records a list has, and how many of them are the key's; what is above 2 is 2.
type Counts = (usize, usize);

fn counts(list: &[Instance], key: Instance) -> Counts {
    let alike = list.iter().filter(|record| is_of(key)(record)).count();
    (list.len().min(2), alike.min(2))
}

/// What there is to see of a key of this kind.
fn possible(kind: Key) -> Vec<(Key, Counts)> {
    let all = [(0, 0), (1, 0), (1, 1), (2, 0), (2, 1), (2, 2)];
    let is_absent = |(records, alike): &Counts| *records > 0 && *alike == 0;
    let seen = all.iter().filter(|of| kind != Key::Known || !is_absent(of));
    seen.map(|of| (kind, *of)).collect()
}

#[test]
fn generated_keys_are_found_where_a_plain_search_finds_them() {
    let mut random = Random::new(103);
    let mut seen = BTreeSet::new();
    for _ in 0..LISTS {
        let list = generated_list(&mut random);
        for _ in 0..KEYS_OF_A_LIST {
            let (kind, key) = any_key(&mut random, &list);
            compare(&list, key);
            seen.insert((kind, counts(&list, key)));
        }
    }
    assert_eq!(seen, Key::ALL.into_iter().flat_map(possible).collect());
}

/// A record no word of which is like another.
fn all_words_unlike() -> Instance {
    (0..WORDS).fold(Instance::EMPTY, |record, word| {
        with_word(record, word, 0x0101_0101 * (word as u32 + 1))
    })
}

#[test]
fn every_bit_of_function_and_sizes_counts_and_none_of_the_numbers() {
    let record = all_words_unlike();
    let list = [filled(7), record, filled(8)];
    assert_eq!(place_of(&list, record), 1);
    for bit in 0..WORDS * 32 {
        let mut key = record;
        *word_of(&mut key, bit / 32) ^= 1 << (bit % 32);
        let counts = bit / 32 < KEY_WORDS;
        assert_eq!(place_of(&list, key), if counts { 3 } else { 1 }, "{bit}");
    }
}

#[test]
fn the_first_of_several_is_found_and_none_behind_the_list() {
    let key = all_words_unlike();
    for records in [1, 2, LIST_RECORDS, 2 * LIST_RECORDS] {
        let mut list = vec![filled(7); records];
        assert_eq!(place_of(&list, key), records);
        for place in [records - 1, records / 2, 0] {
            list[place] = key;
            assert_eq!(place_of(&list, key), place);
            let before = &list[..place / 2];
            assert_eq!(place_of(before, key), before.len());
            assert_eq!(find(before, key.function, &key.sizes), None);
        }
    }
}

#[test]
fn unused_sizes_may_be_left_out_and_no_record_has_nine() {
    let at_4 = with_word(Instance::EMPTY, 1, 4);
    let full = Instance {
        sizes: [4; SIZES],
        ..Instance::EMPTY
    };
    let list = [full, at_4];
    assert_eq!(find(&list, 0, &[4]), Some(1));
    assert_eq!(find(&list, 0, &[4, 0]), Some(1));
    assert_eq!(find(&list, 0, &[4; 7]), None);
    assert_eq!(find(&list, 0, &[4; 8]), Some(0));
    assert_eq!(find(&list, 0, &[4; 9]), None);
    assert_eq!(find(&list, 0, &[4, 0, 0, 0, 0, 0, 0, 0, 0]), None);
    assert_eq!(find(&[], 0, &[]), None);
}

#[test]
fn a_record_of_zeros_is_found_in_use_or_not() {
    let list = [filled(7), Instance::EMPTY, filled(8), Instance::EMPTY];
    assert_eq!(find(&list, 0, &[]), Some(1));
    assert_eq!(find(&list[2..], 0, &[]), Some(1));
    assert_eq!(find(instances(&list[2..]), 0, &[]), None);
}

/// The sizes that an instance has.
fn sizes_in_use(known: &Instance) -> &[u32] {
    let used = known.sizes.iter().take_while(|size| **size != 0).count();
    &known.sizes[..used]
}

/// Every instance of an accepted file, and one that is larger; gives how many instances there are.
fn looked_up(board: &Board) -> usize {
    let entered = board.instances();
    for (place, known) in entered.iter().enumerate() {
        let sizes = sizes_in_use(known);
        assert_eq!(find(entered, known.function, sizes), Some(place));
        assert_eq!(board.instance(known.function, sizes), Some(known));
        let larger: Vec<u32> = sizes.iter().map(|size| size + 1).collect();
        let expected = entered.iter().find(|other| {
            (other.function, sizes_in_use(other)) == (known.function, larger.as_slice())
        });
        assert_eq!(board.instance(known.function, &larger), expected);
    }
    entered.len()
}

#[test]
fn every_instance_of_generated_files_is_found() {
    let found = with_deep_stack(|| {
        let mut mixture = Mixture::new(107);
        let files = (0..GENERATED_FILES).map(|_| mixture.accepted_file());
        let boards = files.map(|(file, _)| Board::start(&writer::text(&file), Sizes::LARGEST));
        boards
            .map(|board| looked_up(&board.expect("accepted")))
            .sum::<usize>()
    });
    assert!(found.expect("every instance is found") > GENERATED_FILES);
}
