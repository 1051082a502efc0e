//! The format of the answers.

use crate::entered::Entered;
use crate::format::{hex, join};
use evaluator::answer::Answer;

/// `<num>,<frame>,<heap>,<env>,<stack>`
pub fn answer(answer: &Answer) -> String {
    let bounds = answer.bounds;
    let (heap, environment, stack) = (bounds.heap, bounds.environment, bounds.stack);
    let (number, frame) = (answer.number, answer.frame);
    format!("{number},{frame},{heap},{environment},{stack}")
}

/// `check:<answer>;inst:<f>:<sizes>:<env>:<heap>:<stack>|...`
pub fn check(checked: &Answer, entered: &[Entered]) -> String {
    let listed: Vec<String> = entered.iter().map(instance).collect();
    format!("check:{};inst:{}", answer(checked), listed.join("|"))
}

fn instance(entered: &Entered) -> String {
    let sizes: Vec<String> = entered.sizes.iter().map(u8::to_string).collect();
    let (environment, heap, stack) = (entered.environment, entered.heap, entered.stack);
    let (function, sizes) = (entered.function, sizes.join(","));
    format!("{function}:{sizes}:{environment}:{heap}:{stack}")
}

/// `start:<answer>;state:<words>`, no words where it is refused.
pub fn start(started: &Answer, words: &[u32]) -> String {
    let state = match started.number {
        0 => join(words),
        _ => String::new(),
    };
    format!("start:{};state:{state}", answer(started))
}

/// `it:<num>,<frame>:<words>`
pub fn iteration(answer: &Answer, words: &[u32]) -> String {
    format!("it:{},{}:{}", answer.number, answer.frame, join(words))
}

/// `wr:<num>,<frame>:<hex of the whole buffer>`
pub fn writing(answer: &Answer, buffer: &[u8]) -> String {
    format!("wr:{},{}:{}", answer.number, answer.frame, hex(buffer))
}
