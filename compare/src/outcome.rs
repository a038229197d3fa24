//! The 64 bits in which an exported function tells its outcome.

use std::fmt;

use crate::fault::Fault;

/// The value of an accepted call; or a fault, its number in the top byte and its place below; or [`Outcome::NO_CALL`].
#[derive(Clone, Copy, Debug, PartialEq, Eq)]
pub struct Outcome(pub u64);

impl Outcome {
    /// No call can be made: there is no such profile, ring or width, or the seed is not 16 bytes long.
    pub const NO_CALL: Outcome = Outcome(1 << 63);

    /// A call that was accepted and has no value to give.
    pub const DONE: Outcome = Outcome(0);
}

impl From<Fault> for Outcome {
    fn from(fault: Fault) -> Outcome {
        Outcome(u64::from(fault.number()) << 56 | fault.place() as u64)
    }
}

impl<T: Into<Outcome>> From<Result<T, Fault>> for Outcome {
    fn from(result: Result<T, Fault>) -> Outcome {
        result.map_or_else(Outcome::from, T::into)
    }
}

impl From<()> for Outcome {
    fn from((): ()) -> Outcome {
        Outcome::DONE
    }
}

impl From<u32> for Outcome {
    fn from(value: u32) -> Outcome {
        Outcome(value.into())
    }
}

impl fmt::Display for Outcome {
    fn fmt(&self, f: &mut fmt::Formatter<'_>) -> fmt::Result {
        let (top, rest) = (self.0 >> 56, self.0 & ((1 << 56) - 1));
        match top {
            0 => write!(f, "{rest}"),
            1..=5 | 7..=9 => write!(f, "fault {top} at place {rest}"),
            _ if *self == Outcome::NO_CALL => write!(f, "no call"),
            _ => write!(f, "{:#018x}, which is no outcome", self.0),
        }
    }
}

#[cfg(test)]
mod tests {
    use super::*;
    use crate::fault::Argument;

    #[test]
    fn a_fault_has_its_number_in_the_top_byte() {
        assert_eq!(Outcome::from(Fault::WrongLength(Argument::Output)).0, 0x0100_0000_0000_0004);
        assert_eq!(Outcome::from(Fault::SourceSpent(511)).0, 0x0500_0000_0000_01ff);
    }

    #[test]
    fn outcomes_are_shown_by_what_they_mean() {
        assert_eq!(Outcome(7).to_string(), "7");
        assert_eq!(Outcome::from(Fault::OutOfRange(7)).to_string(), "fault 2 at place 7");
        assert_eq!(Outcome::from(Fault::SpareBit(16)).to_string(), "fault 9 at place 16");
        assert_eq!(Outcome::NO_CALL.to_string(), "no call");
        assert_eq!(Outcome(0x0600_0000_0000_0000).to_string(), "0x0600000000000000, which is no outcome");
    }
}
