//! The report for other programs: one JSON object a line.

use crate::report::{Lines, Report, Shown};
use crate::usage::Usage;
use paugmeln::{Bounds, Refusal, Value};

pub struct Json;

/// The members of an answer, as far as the sentence.
fn answer(refusal: Option<&Refusal>) -> String {
    match refusal {
        None => r#""number":0,"frame":0"#.to_string(),
        // Debug puts the quotes; no sentence has a character that JSON writes another way.
        Some(refusal) => format!(
            r#""number":{},"frame":{},"sentence":{:?}"#,
            refusal.number,
            refusal.frame,
            refusal.sentence()
        ),
    }
}

fn numbers(heap: u32, environment: u32, stack: u32) -> String {
    format!(r#"{{"heap":{heap},"environment":{environment},"stack":{stack}}}"#)
}

fn needed(bounds: Bounds) -> String {
    let Bounds {
        heap,
        environment,
        stack,
    } = bounds;
    format!(r#""needed":{}"#, numbers(heap, environment, stack))
}

fn state(shown: &Shown) -> String {
    let (kept, stated) = (shown.board.cells_kept(), shown.cells_stated);
    let channels = (0..shown.board.channel_count()).map(|at| channel(shown, at));
    let channels: Vec<String> = channels.collect();
    format!(
        r#""cells_kept":{kept},"cells_stated":{stated},"channels":[{}]"#,
        channels.join(",")
    )
}

fn channel(shown: &Shown, at: usize) -> String {
    let (kind, value) = (shown.kind(at), value(&shown.board.channel(at)));
    format!(r#"{{"kind":"{kind}","value":{value}}}"#)
}

/// An Int is a number, a Bool true or false, a construction an object.
fn value(of: &Value) -> String {
    match of {
        Value::Bool(held) => held.to_string(),
        Value::Int(held) => held.to_string(),
        Value::Construction {
            type_index,
            constructor,
            size,
            fields,
        } => {
            let fields: Vec<String> = fields.iter().map(value).collect();
            format!(
                r#"{{"type":{type_index},"constructor":{constructor},"size":{size},"fields":[{}]}}"#,
                fields.join(",")
            )
        }
    }
}

impl Report for Json {
    fn refused(&self, refusal: &Refusal) -> String {
        let (answer, needed) = (answer(Some(refusal)), needed(refusal.bounds));
        format!("{{\"event\":\"file\",{answer},{needed}}}\n")
    }

    fn started(&self, shown: &Shown) -> String {
        let (answer, needed) = (answer(None), needed(shown.board.numbers()));
        let state = state(shown);
        format!("{{\"event\":\"file\",{answer},{needed},{state}}}\n")
    }

    fn line(&self, number: usize, said: Result<(), Refusal>, shown: &Shown) -> String {
        let (answer, state) = (answer(said.err().as_ref()), state(shown));
        format!("{{\"event\":\"line\",\"line\":{number},{answer},{state}}}\n")
    }

    fn ended(&self, lines: Lines, usage: &Usage, shown: &Shown) -> String {
        let most = usage.most();
        let used = numbers(most.cells, most.slots, most.calls);
        let needed = needed(shown.board.numbers());
        let (count, taken, refused) = (lines.count(), lines.taken, lines.refused);
        let lines = format!(r#""lines":{count},"taken":{taken},"refused":{refused}"#);
        format!("{{\"event\":\"end\",{lines},\"used\":{used},{needed}}}\n")
    }
}
