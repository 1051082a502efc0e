//! A place in a frame, moved on by each read (refusals 4 to 7).

use crate::answer::Refusal;

#[derive(Clone, Debug)]
pub struct Cursor<'a> {
    rest: &'a [u8],
}

impl<'a> Cursor<'a> {
    pub fn new(bytes: &'a [u8]) -> Cursor<'a> {
        Cursor { rest: bytes }
    }

    pub fn byte(&mut self) -> Result<u8, Refusal> {
        let (first, rest) = self.rest.split_first().ok_or(Refusal::Bytes)?;
        self.rest = rest;
        Ok(*first)
    }

    /// A count or k: refused at its own byte when outside `least..=most`.
    pub fn count(&mut self, least: usize, most: usize) -> Result<usize, Refusal> {
        let count = usize::from(self.byte()?);
        match (least..=most).contains(&count) {
            true => Ok(count),
            false => Err(Refusal::Limit),
        }
    }

    /// An index below `bound`.
    pub fn index(&mut self, bound: usize) -> Result<usize, Refusal> {
        let index = usize::from(self.byte()?);
        match index < bound {
            true => Ok(index),
            false => Err(Refusal::Index),
        }
    }

    /// Four bytes, high byte first, two's complement.
    pub fn int(&mut self) -> Result<i32, Refusal> {
        let bytes = [self.byte()?, self.byte()?, self.byte()?, self.byte()?];
        Ok(i32::from_be_bytes(bytes))
    }

    /// A Bool is one byte, 00 or 01; any other is a code outside its set.
    pub fn bool(&mut self) -> Result<bool, Refusal> {
        match self.byte()? {
            0 => Ok(false),
            1 => Ok(true),
            _ => Err(Refusal::Code),
        }
    }

    /// Refuses bytes that go on.
    pub fn end(&self) -> Result<(), Refusal> {
        match self.rest.is_empty() {
            true => Ok(()),
            false => Err(Refusal::Bytes),
        }
    }
}
