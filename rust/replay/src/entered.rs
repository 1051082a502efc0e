//! The instances that a lent list shows, as a report has them.

use evaluator::answer::Board;
use evaluator::instances::Instance;
use evaluator::limits::INSTANCES;
use evaluator::machine;
use evaluator::reader;
use evaluator::syntax::{File, PlainType};

/// An instance with as many sizes as its function has named parameters.
#[derive(Clone, Debug, PartialEq, Eq)]
pub struct Entered {
    pub function: u32,
    pub sizes: Vec<u8>,
    pub environment: u32,
    pub heap: u32,
    pub stack: u32,
}

/// The instances that a list shows after a check of this text.
pub fn entered(text: &[u8], board: Board, list: &[paugmeln::Instance]) -> Vec<Entered> {
    let Ok(file) = reader::read(text) else {
        return vec![];
    };
    let shown = paugmeln::instances(list);
    let mut entered: Vec<Entered> = shown.iter().map(|known| show(&file, known)).collect();
    if named_parameters(&file, 0) == 0 && ends_unseen(text, board) {
        entered.push(unseen());
    }
    entered
}

fn show(file: &File, known: &paugmeln::Instance) -> Entered {
    let count = named_parameters(file, known.function as usize);
    let size = |word: &u32| u8::try_from(*word).expect("a size is at most 64");
    Entered {
        function: known.function,
        sizes: known.sizes[..count].iter().map(size).collect(),
        environment: known.environment,
        heap: known.heap,
        stack: known.stack,
    }
}

/// How many sizes an instance of a function has; 0 for none that is there.
fn named_parameters(file: &File, function: usize) -> usize {
    let named = |parameter: &&PlainType| matches!(parameter, PlainType::Named(_));
    let parameters = file.functions.get(function).map(|known| &known.parameters);
    parameters.map_or(0, |all| all.iter().filter(named).count())
}

/// The one instance whose record is 0 throughout.
fn unseen() -> Entered {
    Entered {
        function: 0,
        sizes: vec![],
        environment: 0,
        heap: 0,
        stack: 0,
    }
}

/// Whether that instance was entered last. The list does not tell, as its
/// unused rest is 0 too; so this is asked of the Rust checker.
fn ends_unseen(text: &[u8], board: Board) -> bool {
    let mut records = vec![Instance::default(); INSTANCES];
    machine::check(text, board, &mut records);
    let used = |record: &&Instance| record.function().is_some();
    records.iter().rfind(used).is_some_and(is_unseen)
}

fn is_unseen(record: &Instance) -> bool {
    let estimate = record.estimate();
    let numbers = [estimate.environment, estimate.heap, estimate.stack];
    record.function() == Some(0) && record.sizes().next().is_none() && numbers == [0; 3]
}
