//! This crate's implementation behind the same functions as [`proved`](crate::proved), so that one can be put in the
//! place of the other.

use crate::derive::{ByteSource, Seed, ShakeSource, Tape, derive};
use crate::fault::{Argument, Fault};
use crate::message::{self, Width};
use crate::outcome::Outcome;
use crate::profile::Profile;
use crate::ring::{Multiplier, Ring, RowSum, Schoolbook};
pub use crate::shake::shake128;

/// By schoolbook where `row_sum` is 0, and by row sum otherwise.
pub fn multiply(
    row_sum: u8,
    n: usize,
    q: u32,
    left: &[u32],
    right: &[u32],
    scratch: &mut [u32],
    output: &mut [u32],
) -> Outcome {
    match Ring::new(n, q) {
        None => Outcome::NO_CALL,
        Some(ring) if row_sum == 0 => Schoolbook(ring).multiply(left, right, scratch, output).into(),
        Some(ring) => RowSum(ring).multiply(left, right, scratch, output).into(),
    }
}

pub fn derive_tape(profile: u8, tape: &[u8], output: &mut [u32]) -> Outcome {
    derive_by(&mut Tape::new(tape), profile, &[0; 16], output)
}

pub fn derive_shake(profile: u8, seed: &[u8], output: &mut [u32]) -> Outcome {
    match seed.try_into() {
        Err(_) => Outcome::NO_CALL,
        Ok(seed) => derive_by(&mut ShakeSource::new(), profile, seed, output),
    }
}

fn derive_by(source: &mut impl ByteSource, profile: u8, seed: &Seed, output: &mut [u32]) -> Outcome {
    with_profile(profile, |profile| derive(profile.ring(), source, seed, output))
}

pub fn round(profile: u8, x: u32) -> Outcome {
    with_profile(profile, |profile| profile.round(x))
}

pub fn recover(profile: u8, y: u32) -> Outcome {
    with_profile(profile, |profile| profile.recover(y))
}

/// The value is the key bit and, times 2, the signal.
pub fn reconcile(profile: u8, x: u32, coin: u8) -> Outcome {
    with_profile(profile, |profile| {
        profile.reconcile(x, coin).map(|both| 2 * u32::from(both.signal) + u32::from(both.key_bit))
    })
}

pub fn read(profile: u8, y: u32, signal: u8) -> Outcome {
    with_profile(profile, |profile| profile.read(y, signal).map(u32::from))
}

pub fn pack(width: u32, numbers: &[u32], output: &mut [u8]) -> Outcome {
    Width::new(width).map_or(Outcome::NO_CALL, |width| message::pack(width, numbers, output).into())
}

pub fn unpack(width: u32, bytes: &[u8], numbers: &mut [u32]) -> Outcome {
    Width::new(width).map_or(Outcome::NO_CALL, |width| message::unpack(width, bytes, numbers).into())
}

pub fn write_offer(profile: u8, round: u32, seed: &[u8], values: &[u32], output: &mut [u8]) -> Outcome {
    match seed.try_into() {
        Err(_) => Outcome::NO_CALL,
        Ok(seed) => with_profile(profile, |profile| message::write_offer(profile, round, seed, values, output)),
    }
}

pub fn write_answer(profile: u8, round: u32, values: &[u32], signals: &[u32], output: &mut [u8]) -> Outcome {
    with_profile(profile, |profile| message::write_answer(profile, round, values, signals, output))
}

pub fn write_confirmation(profile: u8, round: u32, output: &mut [u8]) -> Outcome {
    with_profile(profile, |profile| message::write_confirmation(profile, round, output))
}

/// Accepted, the value is the round, and the buffers hold the seed and the rounded values.
pub fn read_offer(profile: u8, message: &[u8], seed: &mut [u8], values: &mut [u32]) -> Outcome {
    let seed: &mut Seed = match seed.try_into() {
        Err(_) => return Outcome::NO_CALL,
        Ok(seed) => seed,
    };
    with_profile(profile, |profile| -> Result<u32, Fault> {
        Argument::First.of_length(profile.n(), values.len())?;
        let offer = message::read_offer(profile, message)?;
        seed.copy_from_slice(offer.seed.bytes);
        message::unpack(profile.value_width(), offer.values.bytes, values)?;
        Ok(offer.round)
    })
}

/// Accepted, the value is the round, and the buffers hold the rounded values and the signals.
pub fn read_answer(profile: u8, message: &[u8], values: &mut [u32], signals: &mut [u32]) -> Outcome {
    with_profile(profile, |profile| -> Result<u32, Fault> {
        Argument::First.of_length(profile.n(), values.len())?;
        Argument::Second.of_length(profile.n(), signals.len())?;
        let answer = message::read_answer(profile, message)?;
        message::unpack(profile.value_width(), answer.values.bytes, values)?;
        message::unpack(profile.signal_width(), answer.signals.bytes, signals)?;
        Ok(answer.round)
    })
}

/// Accepted, the value is the round.
pub fn read_confirmation(profile: u8, message: &[u8]) -> Outcome {
    with_profile(profile, |profile| message::read_confirmation(profile, message).map(|read| read.round))
}

fn with_profile<T: Into<Outcome>>(index: u8, call: impl FnOnce(Profile) -> T) -> Outcome {
    Profile::house(index).map_or(Outcome::NO_CALL, |profile| call(profile).into())
}

#[cfg(test)]
mod tests {
    use super::*;

    const T_DING: u8 = 0;

    #[test]
    fn what_no_call_can_be_made_of() {
        for width in [0, 17, 256 + 6, u32::MAX] {
            let (mut output, mut numbers) = ([9; 3], [9; 4]);
            assert_eq!(pack(width, &[64; 4], &mut output), Outcome::NO_CALL);
            assert_eq!(unpack(width, &[0; 3], &mut numbers), Outcome::NO_CALL);
            assert_eq!((output, numbers), ([9; 3], [9; 4]));
        }
        for (profile, length) in [(6, 16), (255, 16), (T_DING, 0), (T_DING, 15), (T_DING, 17)] {
            let (mut seed, mut values, mut output) = (vec![9; length], [9; 3], [9; 31]);
            assert_eq!(write_offer(profile, 1, &seed, &[64; 3], &mut output), Outcome::NO_CALL);
            assert_eq!(read_offer(profile, &[], &mut seed, &mut values), Outcome::NO_CALL);
            assert_eq!((seed, values, output), (vec![9; length], [9; 3], [9; 31]));
        }
        let (mut values, mut output) = ([9; 3], [9; 31]);
        assert_eq!(write_answer(6, 1, &[64; 3], &[2; 3], &mut output), Outcome::NO_CALL);
        assert_eq!(write_confirmation(6, 1, &mut output), Outcome::NO_CALL);
        assert_eq!(read_answer(6, &[], &mut values, &mut []), Outcome::NO_CALL);
        assert_eq!(read_confirmation(6, &[]), Outcome::NO_CALL);
        assert_eq!((values, output), ([9; 3], [9; 31]));
    }

    #[test]
    fn buffers_are_looked_at_before_a_message() {
        let refused = |outcome: Outcome, number: u64, place: u64| assert_eq!(outcome, Outcome(number << 56 | place));
        let (mut seed, mut values, mut signals) = ([9; 16], [9; 5], [9; 5]);
        refused(read_offer(T_DING, &[], &mut seed, &mut values), 1, 1);
        refused(read_offer(T_DING, &[], &mut seed, &mut values[..4]), 7, 0);
        refused(read_answer(T_DING, &[], &mut values, &mut signals), 1, 1);
        refused(read_answer(T_DING, &[], &mut values[..4], &mut signals), 1, 2);
        refused(read_answer(T_DING, &[7, 0], &mut values[..4], &mut signals[..4]), 7, 2);
        assert_eq!((seed, values, signals), ([9; 16], [9; 5], [9; 5]));
    }

    #[test]
    fn the_largest_round_is_no_fault() {
        let (mut offer, mut answer, mut confirmation) = ([0; 32], [0; 17], [0; 9]);
        let (mut seed, mut values, mut signals) = ([0; 16], [0; 4], [0; 4]);
        let round = Outcome(u64::from(u32::MAX));

        let parts: (_, &[u32; 4], &[u32; 4]) = (b"sixteen bytes ..", &[63, 1, 62, 2], &[1, 0, 0, 1]);
        assert_eq!(write_offer(T_DING, u32::MAX, parts.0, parts.1, &mut offer), Outcome::DONE);
        assert_eq!(read_offer(T_DING, &offer, &mut seed, &mut values), round);
        assert_eq!((&seed, &values), (parts.0, parts.1));

        assert_eq!(write_answer(T_DING, u32::MAX, parts.1, parts.2, &mut answer), Outcome::DONE);
        assert_eq!(read_answer(T_DING, &answer, &mut values, &mut signals), round);
        assert_eq!((&values, &signals), (parts.1, parts.2));

        assert_eq!(write_confirmation(T_DING, u32::MAX, &mut confirmation), Outcome::DONE);
        assert_eq!(read_confirmation(T_DING, &confirmation), round);
    }
}
