//! What a board reads itself of its rule file, which the proved library has accepted and whose strict text it has written: the
//! words of a state do not say how many fields a constructor has, nor how many channels there are.

use crate::value::FieldCounts;

/// The first byte of a frame.
#[derive(Clone, Copy, PartialEq, Eq)]
pub(crate) enum Kind {
    Type = 0x01,
    Input = 0x03,
    Node = 0x04,
}

mod code {
    pub const OTHER_TYPE_FIELD: u8 = 0x03;
    pub const NAMED_TYPE: u8 = 0x02;
    pub const BOOL: u8 = 0x10;
    pub const INT: u8 = 0x11;
    pub const CONSTRUCTION: u8 = 0x19;
    pub const ADJUSTMENT: u8 = 0x1B;
    pub const CONSTANT_SIZE: u8 = 0x01;
    pub const VARIABLE_SIZE: u8 = 0x02;
}

/// The kind of a node and what stands behind it, in hexadecimal: its previous value as update, as channel 0.
const NODE: &[u8] = b"04";
const KEPT: &[u8] = b"1400\n";

/// The frames of one kind in a strict text, line feeds included.
fn frames(text: &[u8], kind: Kind) -> impl Iterator<Item = &[u8]> {
    let lines = text.split_inclusive(|character| *character == b'\n');
    lines.filter(move |line| Cursor::new(line).byte() == kind as u8)
}

/// How many frames of a kind there are.
pub(crate) fn count(text: &[u8], kind: Kind) -> usize {
    frames(text, kind).count()
}

/// How many fields each constructor of each type has.
pub(crate) fn field_counts(text: &[u8]) -> Vec<Vec<usize>> {
    frames(text, Kind::Type).map(constructor_fields).collect()
}

fn constructor_fields(frame: &[u8]) -> Vec<usize> {
    let mut cursor = Cursor::behind_kind(frame);
    let constructors = cursor.byte();
    (0..constructors)
        .map(|_| {
            let fields = cursor.byte();
            (0..fields).for_each(|_| cursor.pass_field());
            usize::from(fields)
        })
        .collect()
}

/// For each channel the rule file of its types and of it alone, as a node that keeps its value.
///
/// The heap that such a file needs is the cells of the channel: its update makes none, and there is no input. It is no
/// longer than the whole file, where it is a node for its update, where it is an input for a node that is left out.
pub(crate) fn channels_alone(text: &[u8]) -> Vec<Vec<u8>> {
    let types: Vec<u8> = frames(text, Kind::Type).flatten().copied().collect();
    let counts = field_counts(text);
    let channels = frames(text, Kind::Input).chain(frames(text, Kind::Node));
    channels
        .map(|frame| [&types, NODE, declaration(frame, &counts), KEPT].concat())
        .collect()
}

/// The declared type and the initial value of a channel, in hexadecimal.
fn declaration<'a>(frame: &'a [u8], counts: &FieldCounts) -> &'a [u8] {
    let start = Cursor::behind_kind(frame);
    let mut end = Cursor::behind_kind(frame);
    end.pass_declared_type();
    end.pass_initial_value(counts);
    &frame[start.at..end.at]
}

/// A place in a frame whose bytes are known to be well spelled.
struct Cursor<'a> {
    frame: &'a [u8],
    at: usize,
}

impl<'a> Cursor<'a> {
    fn new(frame: &'a [u8]) -> Cursor<'a> {
        Cursor { frame, at: 0 }
    }

    fn behind_kind(frame: &'a [u8]) -> Cursor<'a> {
        let mut cursor = Cursor::new(frame);
        cursor.byte();
        cursor
    }

    fn byte(&mut self) -> u8 {
        let digit = |at: usize| (self.frame[at] as char).to_digit(16);
        let pair = [digit(self.at), digit(self.at + 1)];
        self.at += 2;
        match pair.map(|value| value.expect("a digit of an accepted file") as u8) {
            [high, low] => 16 * high + low,
        }
    }

    fn pass_bytes(&mut self, count: usize) {
        self.at += 2 * count;
    }

    fn pass_field(&mut self) {
        if self.byte() == code::OTHER_TYPE_FIELD {
            self.pass_bytes(2);
        }
    }

    fn pass_declared_type(&mut self) {
        if self.byte() == code::NAMED_TYPE {
            self.pass_bytes(2);
        }
    }

    fn pass_initial_value(&mut self, counts: &FieldCounts) {
        match self.byte() {
            code::BOOL => self.pass_bytes(1),
            code::INT => self.pass_bytes(4),
            code::CONSTRUCTION => {
                let [type_index, constructor] = [self.byte(), self.byte()].map(usize::from);
                let fields = counts[type_index][constructor];
                (0..fields).for_each(|_| self.pass_initial_value(counts));
            }
            code::ADJUSTMENT => {
                self.pass_size();
                self.pass_initial_value(counts);
            }
            other => unreachable!("an accepted initial value with code {other}"),
        }
    }

    fn pass_size(&mut self) {
        match self.byte() {
            code::CONSTANT_SIZE | code::VARIABLE_SIZE => self.pass_bytes(1),
            _sum_or_difference => {
                self.pass_size();
                self.pass_size();
            }
        }
    }
}

#[cfg(test)]
mod tests {
    use super::*;

    #[test]
    fn fields_are_counted_whatever_their_types() {
        let text = b"010200020002\n010203030003000100\n03001000\n";
        assert_eq!(field_counts(text), [vec![0, 2], vec![3, 0]]);
        assert_eq!(count(text, Kind::Input), 1);
    }

    #[test]
    fn a_channel_alone_keeps_its_types_and_its_declaration() {
        let text = b"010200020102\n03011100000007\n040200051B03010201031900001B01051401\n";
        let alone = channels_alone(text);
        let types = "010200020102\n";
        let expected = [
            format!("{types}040111000000071400\n"),
            format!("{types}040200051B03010201031900001400\n"),
        ];
        assert_eq!(alone, expected.map(String::into_bytes));
    }
}
