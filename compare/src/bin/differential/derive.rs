//! Derived elements.

use compare::outcome::Outcome;
use compare::profile::Profile;
use compare::random::Random;
use compare::{plain, proved};

use crate::walled::Walled;
use crate::{Difference, brief, holds, profiles, same, same_list};

const JUNK: u32 = 0xdead_beef;

/// Where an element's bytes come from.
#[derive(Clone, Copy)]
enum Bytes<'a> {
    Tape(&'a [u8]),
    ShakeOf(&'a [u8]),
}

/// Derives on both sides, with junk in the output before, and compares what is left there.
fn compare_element(profile: u8, bytes: Bytes, length: usize) -> Result<Outcome, Difference> {
    let describe = || match bytes {
        Bytes::Tape(tape) => format!("derive, profile {profile}, output {length} long, tape {}", brief(tape)),
        Bytes::ShakeOf(seed) => format!("derive, profile {profile}, output {length} long, seed {}", brief(seed)),
    };
    let mut output = Walled::new(length, JUNK);
    let mut plain_output = vec![JUNK; length];
    let (outcome, expected) = match bytes {
        Bytes::Tape(tape) => {
            (proved::derive_tape(profile, tape, output.buffer()), plain::derive_tape(profile, tape, &mut plain_output))
        }
        Bytes::ShakeOf(seed) => (
            proved::derive_shake(profile, seed, output.buffer()),
            plain::derive_shake(profile, seed, &mut plain_output),
        ),
    };
    same(outcome, expected, describe)?;
    same_list(output.buffer(), &plain_output, describe)?;
    holds(output.walls_stand(), "wrote past an end of the output", describe)?;
    Ok(outcome)
}

/// Tapes cut at every length, from nothing to past the last byte that is needed.
pub fn tapes(random: &mut Random) -> Result<u64, Difference> {
    let mut cases = 0;
    for (index, profile) in profiles() {
        let n = profile.n();
        let length = 4 * n + 40;
        for _ in 0..6 {
            let tape = random.bytes(length);
            for cut in 0..=length {
                compare_element(index, Bytes::Tape(&tape[..cut]), n)?;
                cases += 1;
            }
            let whole = compare_element(index, Bytes::Tape(&tape), n)?;
            assert_eq!(whole, Outcome::DONE, "{}: the tape is long enough", profile.name());
        }
        for (byte, outcome) in [(0, Outcome::DONE), (0xff, Outcome(5 << 56))] {
            let whole = compare_element(index, Bytes::Tape(&vec![byte; length]), n)?;
            assert_eq!(whole, outcome, "{}: {byte} all along the tape", profile.name());
            cases += 1;
        }
    }
    Ok(cases)
}

/// Tapes of numbers next to q and to the ends of the range, with the bits above set and not set.
pub fn numbers_around_q(random: &mut Random) -> Result<u64, Difference> {
    let mut cases = 0;
    for (index, profile) in profiles() {
        let (n, q) = (profile.n(), profile.q());
        let (bits, bytes) = match q {
            257 => (9, 2),
            12289 => (14, 2),
            _ => (23, 3),
        };
        let top = (1 << bits) - 1;
        let numbers = [0, 1, q - 2, q - 1, q, q + 1, top - 1, top];
        for _ in 0..200 {
            let groups = random.below(3 * n as u32);
            let tape: Vec<u8> = (0..groups)
                .flat_map(|_| {
                    let number = random.pick(&numbers) | random.below(1 << 16) << bits;
                    number.to_le_bytes().into_iter().take(bytes)
                })
                .collect();
            for cut in 0..=bytes.min(tape.len()) {
                compare_element(index, Bytes::Tape(&tape[..tape.len() - cut]), n)?;
                cases += 1;
            }
        }
    }
    Ok(cases)
}

pub fn seeds(random: &mut Random) -> Result<u64, Difference> {
    let mut cases = 0;
    for (index, profile) in profiles() {
        let fixed = [[0; 16], [0xff; 16], std::array::from_fn(|i| i as u8)];
        let drawn: Vec<_> = (0..2000).map(|_| random.seed()).collect();
        for seed in fixed.into_iter().chain(drawn) {
            compare_element(index, Bytes::ShakeOf(&seed), profile.n())?;
            cases += 1;
        }
    }
    Ok(cases)
}

/// Outputs and seeds of wrong lengths, profiles that there are not, and several of these at a time.
pub fn refusals(random: &mut Random) -> Result<u64, Difference> {
    let mut cases = 0;
    let long_tape = random.bytes(5000);
    for index in 0..=255 {
        let n = Profile::house(index).map_or(4, |profile| profile.n());
        for length in [0, 1, n - 1, n, n + 1, 2 * n, 1024] {
            for tape in [0, 1, 2, 3, 8, 100, 5000] {
                compare_element(index, Bytes::Tape(&long_tape[..tape]), length)?;
                cases += 1;
            }
            for seed in (0..=40).chain([256, 272, 4096 + 16]) {
                compare_element(index, Bytes::ShakeOf(&long_tape[..seed]), length)?;
                cases += 1;
            }
        }
    }
    Ok(cases)
}
