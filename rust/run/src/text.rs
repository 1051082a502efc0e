//! The report for people.

use crate::report::{Lines, Report, Shown};
use crate::usage::Usage;
use paugmeln::Refusal;

pub struct Text;

fn cells(shown: &Shown) -> String {
    let kept = shown.board.cells_kept();
    format!("{kept} of {} cells kept", shown.cells_stated)
}

fn channels(shown: &Shown) -> String {
    let channels = 0..shown.board.channel_count();
    channels
        .map(|at| {
            let (kind, value) = (shown.kind(at), shown.board.channel(at));
            format!("  channel {at} ({kind}): {value}\n")
        })
        .collect()
}

impl Report for Text {
    fn refused(&self, refusal: &Refusal) -> String {
        format!("file: {refusal}\n")
    }

    fn started(&self, shown: &Shown) -> String {
        let numbers = shown.board.numbers();
        let (cells, channels) = (cells(shown), channels(shown));
        format!("file: accepted, {numbers} needed\nstart: {cells}\n{channels}")
    }

    fn line(&self, number: usize, answer: Result<(), Refusal>, shown: &Shown) -> String {
        let said = match answer {
            Ok(()) => "taken".to_string(),
            Err(refusal) => refusal.to_string(),
        };
        let (cells, channels) = (cells(shown), channels(shown));
        format!("line {number}: {said}; {cells}\n{channels}")
    }

    fn ended(&self, lines: Lines, usage: &Usage, shown: &Shown) -> String {
        let (most, needed) = (usage.most(), shown.board.numbers());
        let parts = [
            ("heap", most.cells, needed.heap),
            ("environment", most.slots, needed.environment),
            ("stack", most.calls, needed.stack),
        ];
        let parts = parts.map(|(name, most, needed)| format!("{name} {most} of {needed}"));
        let (count, taken, refused) = (lines.count(), lines.taken, lines.refused);
        format!(
            "lines: {count}, {taken} taken, {refused} refused\nused at most: {}\n",
            parts.join(", ")
        )
    }
}
