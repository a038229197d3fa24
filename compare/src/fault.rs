//! What a call gives when it refuses.

use std::error::Error;
use std::fmt;

/// A fault of the ring layer or of messages. (Fault 3 is about secrets, which are no part of this crate, and there is no 6.)
#[derive(Clone, Copy, Debug, PartialEq, Eq)]
pub enum Fault {
    /// A list or a buffer is of the wrong length.
    WrongLength(Argument),
    /// The number at this place is out of its range.
    OutOfRange(usize),
    /// The coin at this place is out of range.
    CoinOutOfRange(usize),
    /// The byte source is used up, after so many numbers were kept.
    SourceSpent(usize),
    /// In a message, a count is missing or wrong, a section is cut, or bytes come after the last section: at this offset.
    WrongShape(usize),
    /// The head of a message is that of another kind or profile, by the byte at this offset.
    WrongHead(usize),
    /// A spare bit is set in the byte of a message at this offset.
    SpareBit(usize),
}

/// The list or buffer whose length is wrong.
#[derive(Clone, Copy, Debug, PartialEq, Eq)]
pub enum Argument {
    First,
    Second,
    Scratch,
    Output,
}

impl Argument {
    /// Refuses this argument where its length is not the expected one.
    pub fn of_length(self, expected: usize, length: usize) -> Result<(), Fault> {
        if length == expected { Ok(()) } else { Err(Fault::WrongLength(self)) }
    }
}

impl Fault {
    /// 1 for the ring, 2 for messages.
    pub fn layer(self) -> u8 {
        if self.number() <= 5 { 1 } else { 2 }
    }

    pub fn number(self) -> u8 {
        match self {
            Fault::WrongLength(_) => 1,
            Fault::OutOfRange(_) => 2,
            Fault::CoinOutOfRange(_) => 4,
            Fault::SourceSpent(_) => 5,
            Fault::WrongShape(_) => 7,
            Fault::WrongHead(_) => 8,
            Fault::SpareBit(_) => 9,
        }
    }

    pub fn place(self) -> usize {
        match self {
            Fault::WrongLength(Argument::First) => 1,
            Fault::WrongLength(Argument::Second) => 2,
            Fault::WrongLength(Argument::Scratch) => 3,
            Fault::WrongLength(Argument::Output) => 4,
            Fault::OutOfRange(place) | Fault::CoinOutOfRange(place) | Fault::SourceSpent(place) => place,
            Fault::WrongShape(offset) | Fault::WrongHead(offset) | Fault::SpareBit(offset) => offset,
        }
    }
}

impl fmt::Display for Fault {
    fn fmt(&self, f: &mut fmt::Formatter<'_>) -> fmt::Result {
        write!(f, "fault {} at place {}", self.number(), self.place())
    }
}

impl Error for Fault {}

#[cfg(test)]
mod tests {
    use super::*;

    #[test]
    fn a_fault_has_a_layer_a_number_and_a_place() {
        let told = |fault: Fault| (fault.layer(), fault.number(), fault.place());
        assert_eq!(told(Fault::WrongLength(Argument::Output)), (1, 1, 4));
        assert_eq!(told(Fault::SourceSpent(3)), (1, 5, 3));
        assert_eq!(told(Fault::WrongShape(9)), (2, 7, 9));
        assert_eq!(told(Fault::WrongHead(2)), (2, 8, 2));
        assert_eq!(told(Fault::SpareBit(16)), (2, 9, 16));
    }
}
