//! Numbers in files: groups of seven bits, least group first, shortest form only.
//! Reading goes through a `Reader`, which knows the place of the number being read.

use crate::limits::GROUPS;
use crate::refusal::{refuse, Fault, Refusal};

/// A file's bytes and the offset of the next one to read.
pub struct Reader<'a> {
    bytes: &'a [u8],
    at: usize,
}

impl<'a> Reader<'a> {
    pub fn new(bytes: &'a [u8]) -> Self {
        Reader { bytes, at: 0 }
    }

    /// The offset of the next byte to read.
    pub fn at(&self) -> usize {
        self.at
    }

    /// Reads one number of any value, and tells how many groups it read, also where it
    /// refuses; every fault has the number's first byte as its place.
    pub fn grouped(&mut self) -> (Result<usize, Refusal>, usize) {
        let (first, mut value) = (self.at, 0);
        for before in 0..GROUPS {
            let Some(&byte) = self.bytes.get(first + before) else {
                return (refuse(Fault::Short, first), before);
            };
            value += usize::from(byte & 0x7F) << (7 * before);
            let groups = before + 1;
            if byte >= 0x80 {
                continue;
            }
            if byte == 0 && groups > 1 {
                return (refuse(Fault::Padded, first), groups);
            }
            self.at = first + groups;
            return (Ok(value), groups);
        }
        (refuse(Fault::Number, first), GROUPS)
    }

    /// Reads one number of any value.
    pub fn any(&mut self) -> Result<usize, Refusal> {
        self.grouped().0
    }

    /// Reads one number that has to be from `low` to `high`.
    pub fn field(&mut self, low: usize, high: usize) -> Result<usize, Refusal> {
        let first = self.at;
        let value = self.any()?;
        if value < low || value > high {
            return refuse(Fault::Range, first);
        }
        Ok(value)
    }

    /// Reads one number from 0 to 255.
    pub fn byte(&mut self) -> Result<u8, Refusal> {
        Ok(self.field(0, 255)? as u8)
    }

    /// Refuses bytes that are left over.
    pub fn end(&self) -> Result<(), Refusal> {
        if self.at < self.bytes.len() {
            return refuse(Fault::Tail, self.at);
        }
        Ok(())
    }
}

/// Appends a number below 2^21 in its shortest form.
pub fn write(value: usize, out: &mut Vec<u8>) {
    assert!(value < 1 << (7 * GROUPS));
    let mut rest = value;
    while rest >= 0x80 {
        out.push((rest & 0x7F) as u8 | 0x80);
        rest >>= 7;
    }
    out.push(rest as u8);
}
