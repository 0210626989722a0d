//! The numbered refusals: what went wrong, and at which place.
//! The numbers are the ones that the programs print.

/// The ways to refuse, each with its number.
#[derive(Clone, Copy, Debug, PartialEq, Eq)]
pub enum Fault {
    Short = 1,
    Number = 2,
    Range = 3,
    Stack = 4,
    Tail = 5,
    Long = 6,
    Pool = 7,
    States = 8,
    Runs = 9,
    Loaded = 10,
    Room = 11,
    Pairs = 12,
    Input = 13,
    Typed = 14,
    Padded = 15,
}

/// A fault and its place: a byte offset, or a state, or a pair.
#[derive(Clone, Copy, Debug, PartialEq, Eq)]
pub struct Refusal {
    pub fault: Fault,
    pub place: usize,
}

/// Shorthand for a refusing answer.
pub fn refuse<T>(fault: Fault, place: usize) -> Result<T, Refusal> {
    Err(Refusal { fault, place })
}

impl Refusal {
    /// The line that a program prints.
    pub fn line(&self) -> String {
        format!("refused {} {}\n", self.fault as u8, self.place)
    }
}
