//! Writing and reading messages.

use compare::message::Kind;
use compare::outcome::Outcome;
use compare::profile::Profile;
use compare::random::Random;
use compare::{plain, proved};

use crate::walled::Walled;
use crate::{Difference, brief, holds, profiles, same, same_list};

const JUNK: u32 = 0xdead_beef;
const JUNK_BYTE: u8 = 0xa5;

/// The bytes of a seed.
const SEED: usize = 16;

/// The parts that a message is written from. Of these a kind may have no seed, signals or values.
#[derive(Clone, Debug, PartialEq)]
struct Parts {
    round: u32,
    seed: Vec<u8>,
    values: Vec<u32>,
    signals: Vec<u32>,
}

impl Parts {
    fn random(profile: Profile, random: &mut Random) -> Parts {
        let rounds = [0, 1, 2, 255, 256, 65536, 1 << 31, u32::MAX - 1, u32::MAX, random.word() as u32];
        Parts {
            round: random.pick(&rounds),
            seed: random.bytes(SEED),
            values: random.numbers(profile.n(), profile.p() + 1),
            signals: random.numbers(profile.n(), profile.signals().into()),
        }
    }

    /// The same with all numbers of the lists by a function of the largest number there can be.
    fn filled(mut self, profile: Profile, mut number: impl FnMut(u32) -> u32) -> Parts {
        self.values.fill_with(|| number(profile.p()));
        self.signals.fill_with(|| number(u32::from(profile.signals()) - 1));
        self
    }
}

/// Writes on both sides, with junk in the output before, and compares what is left there.
fn compare_write(kind: Kind, profile: u8, parts: &Parts, length: usize) -> Result<(Outcome, Vec<u8>), Difference> {
    let Parts { round, seed, values, signals } = parts;
    let round = *round;
    let describe = || {
        let lists = format!("seed {}\nvalues {}\nsignals {}", brief(seed), brief(values), brief(signals));
        format!("write {kind:?}, profile {profile}, round {round}, output {length} long\n{lists}")
    };
    let before = parts.clone();
    let mut output = Walled::new(length, JUNK_BYTE);
    let mut plain_output = vec![JUNK_BYTE; length];
    let (buffer, plain_buffer) = (output.buffer(), &mut plain_output);
    let (outcome, expected) = match kind {
        Kind::Offer => (
            proved::write_offer(profile, round, seed, values, buffer),
            plain::write_offer(profile, round, seed, values, plain_buffer),
        ),
        Kind::Answer => (
            proved::write_answer(profile, round, values, signals, buffer),
            plain::write_answer(profile, round, values, signals, plain_buffer),
        ),
        Kind::Confirmation => (
            proved::write_confirmation(profile, round, buffer),
            plain::write_confirmation(profile, round, plain_buffer),
        ),
    };
    same(outcome, expected, describe)?;
    same_list(output.buffer(), &plain_output, describe)?;
    holds(output.walls_stand(), "wrote past an end of the output", describe)?;
    holds(*parts == before, "wrote to a list", describe)?;
    Ok((outcome, plain_output))
}

/// How long the buffers are that a message is read into.
#[derive(Clone, Copy)]
struct Lengths {
    seed: usize,
    values: usize,
    signals: usize,
}

impl Lengths {
    fn of(profile: Profile) -> Lengths {
        Lengths { seed: SEED, values: profile.n(), signals: profile.n() }
    }
}

/// What reading left in the buffers.
struct Left {
    outcome: Outcome,
    seed: Vec<u8>,
    values: Vec<u32>,
    signals: Vec<u32>,
}

/// Reads on both sides, with junk in the buffers before, and compares what is left there.
fn compare_read_into(kind: Kind, profile: u8, message: &[u8], lengths: Lengths) -> Result<Left, Difference> {
    let describe = || {
        let Lengths { seed, values, signals } = lengths;
        let buffers = format!("seed {seed} long, values {values} long, signals {signals} long");
        let hex: String = message.iter().map(|byte| format!("{byte:02x}")).collect();
        format!("read {kind:?}, profile {profile}, {buffers}\nmessage of {} bytes: {hex}", message.len())
    };
    let before = message.to_vec();
    let mut seed = Walled::new(lengths.seed, JUNK_BYTE);
    let mut values = Walled::new(lengths.values, JUNK);
    let mut signals = Walled::new(lengths.signals, JUNK);
    let outcome = match kind {
        Kind::Offer => proved::read_offer(profile, message, seed.buffer(), values.buffer()),
        Kind::Answer => proved::read_answer(profile, message, values.buffer(), signals.buffer()),
        Kind::Confirmation => proved::read_confirmation(profile, message),
    };

    let mut left = Left {
        outcome,
        seed: vec![JUNK_BYTE; lengths.seed],
        values: vec![JUNK; lengths.values],
        signals: vec![JUNK; lengths.signals],
    };
    let expected = match kind {
        Kind::Offer => plain::read_offer(profile, message, &mut left.seed, &mut left.values),
        Kind::Answer => plain::read_answer(profile, message, &mut left.values, &mut left.signals),
        Kind::Confirmation => plain::read_confirmation(profile, message),
    };

    same(outcome, expected, describe)?;
    same_list(seed.buffer(), &left.seed, || format!("{}\nin the seed:", describe()))?;
    same_list(values.buffer(), &left.values, || format!("{}\nin the values:", describe()))?;
    same_list(signals.buffer(), &left.signals, || format!("{}\nin the signals:", describe()))?;
    let walls_stand = seed.walls_stand() && values.walls_stand() && signals.walls_stand();
    holds(walls_stand, "wrote past an end of a buffer", describe)?;
    holds(message == before, "wrote to the message", describe)?;
    Ok(left)
}

/// The same into buffers of the right lengths.
fn compare_read(kind: Kind, profile: u8, message: &[u8]) -> Result<Left, Difference> {
    let lengths = Lengths::of(Profile::HOUSE[usize::from(profile)]);
    compare_read_into(kind, profile, message, lengths)
}

/// Each kind in each house profile.
fn kinds() -> impl Iterator<Item = (Kind, u8, Profile)> {
    profiles().flat_map(|(index, profile)| Kind::ALL.map(|kind| (kind, index, profile)))
}

/// A message with random parts, as this crate writes it.
fn random_message(kind: Kind, profile: Profile, random: &mut Random) -> Vec<u8> {
    use compare::message::{write_answer, write_confirmation, write_offer};
    let Parts { round, seed, values, signals } = Parts::random(profile, random);
    let mut message = vec![JUNK_BYTE; kind.length(profile)];
    match kind {
        Kind::Offer => {
            let seed = seed.as_array().expect("a seed has 16 bytes");
            write_offer(profile, round, seed, &values, &mut message)
        }
        Kind::Answer => write_answer(profile, round, &values, &signals, &mut message),
        Kind::Confirmation => write_confirmation(profile, round, &mut message),
    }
    .expect("the parts are right");
    message
}

/// The offsets of the counts.
fn counts(kind: Kind, profile: Profile) -> Vec<usize> {
    match kind {
        Kind::Offer => vec![0, 9, 27],
        Kind::Answer => vec![0, 9, 11 + profile.value_width().bytes(profile.n())],
        Kind::Confirmation => vec![0],
    }
}

/// Random parts and parts at the ends of their ranges, written and read back.
pub fn round_trips(random: &mut Random) -> Result<u64, Difference> {
    let mut cases = 0;
    for (kind, index, profile) in kinds() {
        let mut all = vec![];
        for round in [0, 1, 2, 255, 256, 258, 65535, 65536, 1 << 24, 1 << 31, u32::MAX - 1, u32::MAX] {
            let parts = Parts { round, ..Parts::random(profile, random) };
            all.push(parts.clone().filled(profile, |_| 0));
            all.push(parts.clone().filled(profile, |largest| largest));
            all.push(parts.clone().filled(profile, |largest| random.pick(&[0, 1, largest / 2, largest])));
            all.push(parts);
        }
        all.extend((0..1000).map(|_| Parts::random(profile, random)));
        for parts in all {
            let (outcome, message) = compare_write(kind, index, &parts, kind.length(profile))?;
            assert_eq!(outcome, Outcome::DONE, "{kind:?} of {}: {parts:?}", profile.name());
            let left = compare_read(kind, index, &message)?;
            assert_eq!(left.outcome, Outcome(parts.round.into()), "{kind:?} of {}: {parts:?}", profile.name());
            match kind {
                Kind::Offer => assert_eq!((left.seed, left.values), (parts.seed, parts.values)),
                Kind::Answer => assert_eq!((left.values, left.signals), (parts.values, parts.signals)),
                Kind::Confirmation => (),
            }
            cases += 2;
        }
    }
    Ok(cases)
}

/// Lists and buffers too short, right and too long, in all combinations, with numbers that are all fine, and with numbers
/// that are all out of range.
pub fn write_wrong_lengths(random: &mut Random) -> Result<u64, Difference> {
    let mut cases = 0;
    for (kind, index, profile) in kinds() {
        let n = profile.n();
        let length = kind.length(profile);
        let around = |x: usize| [0, x - 1, x, x + 1, 2 * x];
        let fine = Parts::random(profile, random);
        for parts in [fine.clone(), fine.filled(profile, |largest| largest + 1)] {
            for values in around(n) {
                for signals in around(n) {
                    let cycled = |list: &[u32], length| list.iter().copied().cycle().take(length).collect();
                    let parts = Parts {
                        values: cycled(&parts.values, values),
                        signals: cycled(&parts.signals, signals),
                        ..parts.clone()
                    };
                    for output in around(length) {
                        compare_write(kind, index, &parts, output)?;
                        cases += 1;
                    }
                }
            }
            // The lengths of the other kinds and profiles.
            for (kind_of_length, _, profile_of_length) in kinds() {
                compare_write(kind, index, &parts, kind_of_length.length(profile_of_length))?;
                cases += 1;
            }
        }
    }
    Ok(cases)
}

/// One number out of range, at each place of the values and of the signals, and then another one somewhere.
pub fn write_every_place(random: &mut Random) -> Result<u64, Difference> {
    let mut cases = 0;
    for (index, profile) in profiles() {
        let (n, p, signals) = (profile.n(), profile.p(), u32::from(profile.signals()));
        let beyond = |place: usize, random: &mut Random| {
            let least = if place < n { p + 1 } else { signals };
            random.pick(&[least, least, least + 1, 1 << 8, 1 << 16, 1 << 31, u32::MAX]).max(least)
        };
        let put = |parts: &mut Parts, place: usize, number: u32| match place.checked_sub(n) {
            None => parts.values[place] = number,
            Some(place) => parts.signals[place] = number,
        };
        for place in 0..2 * n {
            let mut parts = Parts::random(profile, random);
            put(&mut parts, place, beyond(place, random));
            let (offer, answer) = (Kind::Offer.length(profile), Kind::Answer.length(profile));
            // To an offer and to a confirmation the signals do not matter.
            let expected = if place < n { Outcome(2 << 56 | place as u64) } else { Outcome::DONE };
            assert_eq!(compare_write(Kind::Offer, index, &parts, offer)?.0, expected);
            let expected = Outcome(2 << 56 | place as u64);
            assert_eq!(compare_write(Kind::Answer, index, &parts, answer)?.0, expected);
            cases += 2;

            let others: Vec<usize> =
                if n == 4 { (0..2 * n).collect() } else { vec![random.below(2 * n as u32) as usize] };
            for other in others {
                let mut parts = parts.clone();
                put(&mut parts, other, beyond(other, random));
                compare_write(Kind::Offer, index, &parts, offer)?;
                compare_write(Kind::Answer, index, &parts, answer)?;
                cases += 2;
            }
        }
    }
    Ok(cases)
}

/// Messages cut at every length, and followed by a few more bytes.
pub fn cuts(random: &mut Random) -> Result<u64, Difference> {
    let mut cases = 0;
    for (kind, index, profile) in kinds() {
        for _ in 0..3 {
            let message = random_message(kind, profile, random);
            for length in 0..=message.len() {
                compare_read(kind, index, &message[..length])?;
                cases += 1;
            }
            for more in [1, 2, 3, 9, message.len(), 65536] {
                for bytes in [vec![0; more], random.bytes(more)] {
                    let longer = [message.as_slice(), &bytes].concat();
                    let outcome = compare_read(kind, index, &longer)?.outcome;
                    assert_eq!(outcome, Outcome(7 << 56 | message.len() as u64), "{more} more bytes");
                    cases += 1;
                }
            }
        }
    }
    Ok(cases)
}

/// Each byte changed: to every other value at T, and to a few at S and W.
pub fn single_damages(random: &mut Random) -> Result<u64, Difference> {
    let mut cases = 0;
    for (kind, index, profile) in kinds() {
        for _ in 0..if profile.n() == 4 { 5 } else { 1 } {
            let message = random_message(kind, profile, random);
            for (place, byte) in message.iter().enumerate() {
                let changes: Vec<u8> =
                    if profile.n() == 4 { (1..=255).collect() } else { vec![1, 2, 0x10, 0x80, 0xff, *byte] };
                for change in changes {
                    let mut damaged = message.clone();
                    damaged[place] = byte ^ change;
                    compare_read(kind, index, &damaged)?;
                    cases += 1;
                }
            }
        }
    }
    Ok(cases)
}

/// Up to four bytes changed, mostly among the counts, the head and the last ones, and the message then cut or longer, or not.
pub fn several_damages(random: &mut Random) -> Result<u64, Difference> {
    let mut cases = 0;
    for (kind, index, profile) in kinds() {
        for _ in 0..10_000 {
            let mut message = random_message(kind, profile, random);
            let length = message.len();
            let mut places: Vec<usize> = (2..5).collect();
            places.extend(counts(kind, profile).iter().flat_map(|&at| [at, at + 1]));
            places.extend([length - 1, length - 1, random.below(length as u32) as usize]);
            for _ in 0..=random.below(3) {
                message[random.pick(&places)] ^= random.pick(&[1, 2, 3, 0x10, 0x80, 0xff]);
            }
            match random.below(4) {
                0 => message.truncate(random.below(length as u32) as usize),
                1 => message.push(random.byte()),
                _ => (),
            }
            compare_read(kind, index, &message)?;
            cases += 1;
        }
    }
    Ok(cases)
}

/// Every number as a count of a message of T, with the rest as it should be and with nothing after the count; and of S and
/// W, numbers that have something to do with the right ones.
pub fn every_count(random: &mut Random) -> Result<u64, Difference> {
    let mut cases = 0;
    for (kind, index, profile) in kinds() {
        let message = random_message(kind, profile, random);
        for at in counts(kind, profile) {
            let right = u16::from_le_bytes([message[at], message[at + 1]]);
            let left = (message.len() - at - 2) as u16;
            let related = [right, left].into_iter().flat_map(|x| [x - 1, x, x + 1, x.swap_bytes(), x + 256, 8 * x]);
            let numbers: Vec<u16> =
                if profile.n() == 4 { (0..=u16::MAX).collect() } else { related.chain([0, u16::MAX]).collect() };
            for number in numbers {
                let mut damaged = message.clone();
                damaged[at..at + 2].copy_from_slice(&number.to_le_bytes());
                compare_read(kind, index, &damaged)?;
                damaged.truncate(at + 2);
                compare_read(kind, index, &damaged)?;
                cases += 2;
            }
        }
    }
    Ok(cases)
}

/// Each message read as each kind by each profile, and heads that name others.
pub fn others(random: &mut Random) -> Result<u64, Difference> {
    let mut cases = 0;
    for (kind, index, profile) in kinds() {
        for _ in 0..10 {
            let message = random_message(kind, profile, random);
            for (other_kind, other, _) in kinds() {
                compare_read(other_kind, other, &message)?;
                cases += 1;
            }
        }
        let mut message = random_message(kind, profile, random);
        for names in 0..6_u8.pow(3) {
            message[2..5].copy_from_slice(&[names % 6, names / 6 % 6, names / 36]);
            compare_read(kind, index, &message)?;
            cases += 1;
        }
    }
    Ok(cases)
}

/// Bytes that are all random, and random ones behind right counts, where spare bits are often set.
pub fn random_bytes(random: &mut Random) -> Result<u64, Difference> {
    let mut cases = 0;
    for (kind, index, profile) in kinds() {
        let right = kind.length(profile) as u32;
        for _ in 0..2000 {
            let length = random.below(2 * right);
            compare_read(kind, index, &random.bytes(length as usize))?;
            cases += 1;
        }
        for _ in 0..2000 {
            let model = random_message(kind, profile, random);
            let mut message = random.bytes(model.len());
            for at in counts(kind, profile) {
                message[at..at + 2].copy_from_slice(&model[at..at + 2]);
            }
            if random.below(8) > 0 {
                message[2..5].copy_from_slice(&model[2..5]);
            }
            compare_read(kind, index, &message)?;
            cases += 1;
        }
    }
    Ok(cases)
}

/// Buffers to read into, and seeds, of wrong lengths, profiles that there are not, and several of these at a time, with
/// messages that are fine and that are not.
pub fn wrong_buffers(random: &mut Random) -> Result<u64, Difference> {
    let mut cases = 0;
    for index in 0..=255 {
        let profile = Profile::house(index).unwrap_or(Profile::HOUSE[0]);
        let n = profile.n();
        for kind in Kind::ALL {
            let message = random_message(kind, profile, random);
            let mut damaged = message.clone();
            damaged[2] ^= 0x10;
            for message in [message.as_slice(), &message[1..], &damaged, &[]] {
                for values in [0, n - 1, n, n + 1] {
                    for signals in [0, n - 1, n, n + 1] {
                        compare_read_into(kind, index, message, Lengths { seed: SEED, values, signals })?;
                        cases += 1;
                    }
                    for seed in [0, 1, 15, 16, 17, 32, 256 + 16] {
                        compare_read_into(kind, index, message, Lengths { seed, values, signals: n })?;
                        cases += 1;
                    }
                }
            }

            let right = Parts::random(profile, random);
            for parts in [right.clone(), right.filled(profile, |largest| largest + 1)] {
                for length in [0, kind.length(profile) - 1, kind.length(profile)] {
                    for seed in (0..=40).chain([256, 272, 4096 + 16]) {
                        let parts = Parts { seed: random.bytes(seed), ..parts.clone() };
                        compare_write(kind, index, &parts, length)?;
                        cases += 1;
                    }
                }
            }
        }
    }
    Ok(cases)
}
