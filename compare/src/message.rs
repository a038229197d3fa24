//! Messages: packing numbers into bytes, and writing and reading offers, answers and confirmations.

use std::iter::zip;
use std::mem;

use crate::derive::Seed;
use crate::fault::{Argument, Fault};
use crate::profile::Profile;

/// The bits of each of the numbers that are packed, from 1 to 16.
#[derive(Clone, Copy, Debug, PartialEq, Eq)]
pub struct Width(u32);

impl Width {
    /// `None` where there is no such width.
    pub const fn new(bits: u32) -> Option<Width> {
        if bits >= 1 && bits <= 16 { Some(Width(bits)) } else { None }
    }

    pub const fn bits(self) -> u32 {
        self.0
    }

    pub const fn largest(self) -> u32 {
        (1 << self.0) - 1
    }

    /// How many bytes so many numbers take.
    pub const fn bytes(self, count: usize) -> usize {
        // Eight numbers take as many bytes as one takes bits. So nothing overflows, for any list that there can be.
        let bits = self.0 as usize;
        count / 8 * bits + (count % 8 * bits).div_ceil(8)
    }

    /// Refuses the first number that does not fit. Its place is its index, counted on from `start`.
    fn check(self, numbers: &[u32], start: usize) -> Result<(), Fault> {
        // All of them at once first, which takes far less time than looking for the place.
        if numbers.iter().fold(0, |all, x| all | x) <= self.largest() {
            return Ok(());
        }
        match numbers.iter().position(|&x| x > self.largest()) {
            Some(index) => Err(Fault::OutOfRange(start + index)),
            None => Ok(()),
        }
    }
}

/// Packs numbers one after another, low bits first. Refused, the output is as it was.
pub fn pack(width: Width, numbers: &[u32], output: &mut [u8]) -> Result<(), Fault> {
    Argument::Output.of_length(width.bytes(numbers.len()), output.len())?;
    width.check(numbers, 0)?;
    pack_fitting(width, numbers, output);
    Ok(())
}

/// Packs numbers that fit, into an output of the right length.
fn pack_fitting(width: Width, numbers: &[u32], output: &mut [u8]) {
    // The bits that are not written yet, fewer than 32 between two numbers.
    let (mut held, mut bits) = (0_u64, 0);
    let mut at = 0;
    for &x in numbers {
        held |= u64::from(x) << bits;
        bits += width.bits();
        if bits >= 32 {
            output[at..at + 4].copy_from_slice(&(held as u32).to_le_bytes());
            at += 4;
            held >>= 32;
            bits -= 32;
        }
    }
    let left = &mut output[at..];
    left.copy_from_slice(&held.to_le_bytes()[..left.len()]);
}

/// Unpacks as many numbers as the buffer is long. Refused, it is as it was.
pub fn unpack(width: Width, bytes: &[u8], numbers: &mut [u32]) -> Result<(), Fault> {
    Argument::First.of_length(width.bytes(numbers.len()), bytes.len())?;

    let (words, rest) = bytes.as_chunks();
    let mut last = [0; 4];
    last[..rest.len()].copy_from_slice(rest);
    let mut words = words.iter().chain([&last]).map(|word| u32::from_le_bytes(*word));
    // The bits that are not handed out yet, fewer than 48.
    let (mut held, mut bits) = (0_u64, 0);
    for x in numbers {
        if bits < width.bits() {
            let word = words.next().expect("there are bytes for all numbers");
            held |= u64::from(word) << bits;
            bits += 32;
        }
        *x = held as u32 & width.largest();
        held >>= width.bits();
        bits -= width.bits();
    }
    Ok(())
}

#[derive(Clone, Copy, Debug, PartialEq, Eq)]
pub enum Kind {
    Offer,
    Answer,
    Confirmation,
}

impl Kind {
    pub const ALL: [Kind; 3] = [Kind::Offer, Kind::Answer, Kind::Confirmation];

    /// How a message's head names its kind.
    pub fn byte(self) -> u8 {
        match self {
            Kind::Offer => 1,
            Kind::Answer => 2,
            Kind::Confirmation => 3,
        }
    }

    /// The bytes of a message of this kind.
    pub fn length(self, profile: Profile) -> usize {
        match self {
            Kind::Offer => whole(offer_lengths(profile)),
            Kind::Answer => whole(answer_lengths(profile)),
            Kind::Confirmation => whole(CONFIRMATION_LENGTHS),
        }
    }
}

/// The bytes of a section's count.
const COUNT: usize = 2;

/// The bytes of a head.
const HEAD: usize = 7;

/// The bytes of the head, the seed and the rounded values.
fn offer_lengths(profile: Profile) -> [usize; 3] {
    [HEAD, size_of::<Seed>(), profile.value_width().bytes(profile.n())]
}

/// The bytes of the head, the rounded values and the signals.
fn answer_lengths(profile: Profile) -> [usize; 3] {
    [HEAD, profile.value_width().bytes(profile.n()), profile.signal_width().bytes(profile.n())]
}

const CONFIRMATION_LENGTHS: [usize; 1] = [HEAD];

/// The bytes of a message whose sections have these lengths.
fn whole<const N: usize>(lengths: [usize; N]) -> usize {
    lengths.iter().map(|length| COUNT + length).sum()
}

/// Writes an offer. Refused, as in the other two, the output is as it was.
pub fn write_offer(profile: Profile, round: u32, seed: &Seed, values: &[u32], output: &mut [u8]) -> Result<(), Fault> {
    let lengths = offer_lengths(profile);
    Argument::First.of_length(profile.n(), values.len())?;
    Argument::Output.of_length(whole(lengths), output.len())?;
    profile.value_width().check(values, 0)?;

    let [head, seed_section, value_section] = write_counts(output, lengths);
    write_head(head, Kind::Offer, profile, round);
    seed_section.copy_from_slice(seed);
    pack_fitting(profile.value_width(), values, value_section);
    Ok(())
}

pub fn write_answer(
    profile: Profile,
    round: u32,
    values: &[u32],
    signals: &[u32],
    output: &mut [u8],
) -> Result<(), Fault> {
    let n = profile.n();
    let lengths = answer_lengths(profile);
    Argument::First.of_length(n, values.len())?;
    Argument::Second.of_length(n, signals.len())?;
    Argument::Output.of_length(whole(lengths), output.len())?;
    profile.value_width().check(values, 0)?;
    profile.signal_width().check(signals, n)?;

    let [head, value_section, signal_section] = write_counts(output, lengths);
    write_head(head, Kind::Answer, profile, round);
    pack_fitting(profile.value_width(), values, value_section);
    pack_fitting(profile.signal_width(), signals, signal_section);
    Ok(())
}

pub fn write_confirmation(profile: Profile, round: u32, output: &mut [u8]) -> Result<(), Fault> {
    Argument::Output.of_length(whole(CONFIRMATION_LENGTHS), output.len())?;

    let [head] = write_counts(output, CONFIRMATION_LENGTHS);
    write_head(head, Kind::Confirmation, profile, round);
    Ok(())
}

/// Writes the counts of a message, and gives the sections, still to be filled. The output is as long as the message.
fn write_counts<const N: usize>(mut output: &mut [u8], lengths: [usize; N]) -> [&mut [u8]; N] {
    lengths.map(|length| {
        let (count, rest) = mem::take(&mut output).split_at_mut(COUNT);
        let (section, rest) = rest.split_at_mut(length);
        let number = u16::try_from(length).expect("a section's length fits its count");
        count.copy_from_slice(&number.to_le_bytes());
        output = rest;
        section
    })
}

fn write_head(head: &mut [u8], kind: Kind, profile: Profile, round: u32) {
    let (names, rest) = head.split_at_mut(3);
    names.copy_from_slice(&names_of(kind, profile));
    rest.copy_from_slice(&round.to_le_bytes());
}

/// The three bytes with which the head begins.
fn names_of(kind: Kind, profile: Profile) -> [u8; 3] {
    [kind.byte(), profile.numbers_byte(), profile.reconciler_byte()]
}

/// A stretch of a message.
#[derive(Clone, Copy, Debug, PartialEq, Eq)]
pub struct Section<'a> {
    pub offset: usize,
    pub bytes: &'a [u8],
}

/// An offer that was read.
#[derive(Clone, Copy, Debug, PartialEq, Eq)]
pub struct Offer<'a> {
    pub round: u32,
    pub head: Section<'a>,
    pub seed: Section<'a>,
    pub values: Section<'a>,
}

/// An answer that was read.
#[derive(Clone, Copy, Debug, PartialEq, Eq)]
pub struct Answer<'a> {
    pub round: u32,
    pub head: Section<'a>,
    pub values: Section<'a>,
    pub signals: Section<'a>,
}

/// A confirmation that was read.
#[derive(Clone, Copy, Debug, PartialEq, Eq)]
pub struct Confirmation<'a> {
    pub round: u32,
    pub head: Section<'a>,
}

pub fn read_offer(profile: Profile, message: &[u8]) -> Result<Offer<'_>, Fault> {
    let [head, seed, values] = read_sections(message, offer_lengths(profile))?;
    let round = read_head(head, Kind::Offer, profile)?;
    check_spare(values, profile.value_width(), profile.n())?;
    Ok(Offer { round, head, seed, values })
}

pub fn read_answer(profile: Profile, message: &[u8]) -> Result<Answer<'_>, Fault> {
    let [head, values, signals] = read_sections(message, answer_lengths(profile))?;
    let round = read_head(head, Kind::Answer, profile)?;
    check_spare(values, profile.value_width(), profile.n())?;
    check_spare(signals, profile.signal_width(), profile.n())?;
    Ok(Answer { round, head, values, signals })
}

pub fn read_confirmation(profile: Profile, message: &[u8]) -> Result<Confirmation<'_>, Fault> {
    let [head] = read_sections(message, CONFIRMATION_LENGTHS)?;
    let round = read_head(head, Kind::Confirmation, profile)?;
    Ok(Confirmation { round, head })
}

/// The sections of a message that has just these, of these lengths.
fn read_sections<const N: usize>(message: &[u8], lengths: [usize; N]) -> Result<[Section<'_>; N], Fault> {
    let mut sections = [Section { offset: 0, bytes: &[] }; N];
    let mut at = 0;
    for (section, length) in zip(&mut sections, lengths) {
        match message[at..].first_chunk::<COUNT>() {
            Some(count) if usize::from(u16::from_le_bytes(*count)) == length => at += COUNT,
            _ => return Err(Fault::WrongShape(at)),
        }
        let bytes = message[at..].get(..length).ok_or(Fault::WrongShape(at))?;
        *section = Section { offset: at, bytes };
        at += length;
    }
    if at == message.len() { Ok(sections) } else { Err(Fault::WrongShape(at)) }
}

/// The round that a head tells, where the head is that of the kind and the profile.
fn read_head(head: Section, kind: Kind, profile: Profile) -> Result<u32, Fault> {
    let (names, round) = head.bytes.split_at(3);
    match zip(names, names_of(kind, profile)).position(|(byte, expected)| *byte != expected) {
        Some(index) => Err(Fault::WrongHead(head.offset + index)),
        None => Ok(u32::from_le_bytes(round.try_into().expect("the round has four bytes"))),
    }
}

/// Refuses spare bits that are set in a section of so many packed numbers.
fn check_spare(section: Section, width: Width, count: usize) -> Result<(), Fault> {
    let used = count % 8 * width.bits() as usize % 8;
    match section.bytes.last() {
        Some(last) if used > 0 && last >> used > 0 => Err(Fault::SpareBit(section.offset + section.bytes.len() - 1)),
        _ => Ok(()),
    }
}

#[cfg(test)]
mod tests {
    use std::ptr;

    use super::*;
    use crate::random::Random;

    const T_DING: Profile = Profile::HOUSE[0];
    const T_OKCN: Profile = Profile::HOUSE[1];

    const SEED: Seed = [0, 1, 2, 3, 4, 5, 6, 7, 8, 9, 10, 11, 12, 13, 14, 15];
    const OFFERED: [u32; 4] = [24, 48, 1, 0];
    const ANSWERED: [u32; 4] = [0, 24, 50, 1];
    const SIGNALS: [u32; 4] = [0, 1, 0, 0];

    #[rustfmt::skip]
    const OFFER: [u8; 32] = [
        0x07, 0x00, 0x01, 0x01, 0x01, 0x01, 0x00, 0x00, 0x00,
        0x10, 0x00, 0x00, 0x01, 0x02, 0x03, 0x04, 0x05, 0x06, 0x07, 0x08, 0x09, 0x0a, 0x0b, 0x0c, 0x0d, 0x0e, 0x0f,
        0x03, 0x00, 0x18, 0x1c, 0x00,
    ];
    #[rustfmt::skip]
    const ANSWER: [u8; 17] = [
        0x07, 0x00, 0x02, 0x01, 0x01, 0x01, 0x00, 0x00, 0x00,
        0x03, 0x00, 0x00, 0x26, 0x07,
        0x01, 0x00, 0x02,
    ];
    const CONFIRMATION: [u8; 9] = [0x07, 0x00, 0x03, 0x01, 0x01, 0x01, 0x00, 0x00, 0x00];

    /// The messages of the worked example, with their kinds.
    const WORKED: [(Kind, &[u8]); 3] =
        [(Kind::Offer, &OFFER), (Kind::Answer, &ANSWER), (Kind::Confirmation, &CONFIRMATION)];

    fn width(bits: u32) -> Width {
        Width::new(bits).unwrap()
    }

    /// The round that the message has, or the number and place of the fault.
    fn read(kind: Kind, profile: Profile, message: &[u8]) -> Result<u32, (u8, usize)> {
        match kind {
            Kind::Offer => read_offer(profile, message).map(|offer| offer.round),
            Kind::Answer => read_answer(profile, message).map(|answer| answer.round),
            Kind::Confirmation => read_confirmation(profile, message).map(|confirmation| confirmation.round),
        }
        .map_err(|fault| (fault.number(), fault.place()))
    }

    /// A message of random parts, and of that round.
    fn written(kind: Kind, profile: Profile, round: u32, random: &mut Random) -> Vec<u8> {
        let values = random.numbers(profile.n(), profile.p() + 1);
        let signals = random.numbers(profile.n(), profile.signals().into());
        let mut message = vec![0xa5; kind.length(profile)];
        match kind {
            Kind::Offer => write_offer(profile, round, &random.seed(), &values, &mut message),
            Kind::Answer => write_answer(profile, round, &values, &signals, &mut message),
            Kind::Confirmation => write_confirmation(profile, round, &mut message),
        }
        .unwrap();
        message
    }

    #[test]
    fn widths() {
        assert_eq!([0, 17, 32, u32::MAX].map(Width::new), [None; 4]);
        for bits in 1..=16 {
            assert_eq!(width(bits).largest(), 2_u32.pow(bits) - 1);
            for count in 0..100 {
                assert_eq!(width(bits).bytes(count), (count * bits as usize).div_ceil(8));
            }
            let most = isize::MAX as usize / size_of::<u32>();
            assert_eq!(width(bits).bytes(most) as u128, (most as u128 * u128::from(bits)).div_ceil(8));
        }
    }

    #[test]
    fn packing_is_as_defined() {
        let mut random = Random::new(5);
        for width in (1..=16).map(width) {
            for count in (0..70).chain([256, 512, 1024]) {
                let numbers = random.numbers(count, width.largest() + 1);
                let mut expected = vec![0; (count * width.bits() as usize).div_ceil(8)];
                for (i, x) in numbers.iter().enumerate() {
                    for bit in 0..width.bits() as usize {
                        let j = i * width.bits() as usize + bit;
                        expected[j / 8] |= ((x >> bit & 1) as u8) << (j % 8);
                    }
                }
                let mut packed = vec![0xa5; expected.len()];
                pack(width, &numbers, &mut packed).unwrap();
                assert_eq!(packed, expected, "{count} numbers of {} bits", width.bits());

                // Spare bits may be anything for unpacking.
                let spare = packed.len() * 8 - count * width.bits() as usize;
                if let Some(last) = packed.last_mut() {
                    *last |= random.byte() & !(0xff >> spare);
                }
                let mut unpacked = vec![u32::MAX; count];
                unpack(width, &packed, &mut unpacked).unwrap();
                assert_eq!(unpacked, numbers, "{count} numbers of {} bits", width.bits());
            }
        }
    }

    #[test]
    fn packing_by_hand() {
        let mut packed = [9; 3];
        pack(width(6), &OFFERED, &mut packed).unwrap();
        assert_eq!(packed, [0x18, 0x1c, 0x00]);
        pack(width(6), &ANSWERED, &mut packed).unwrap();
        assert_eq!(packed, [0x00, 0x26, 0x07]);
        pack(width(1), &SIGNALS, &mut packed[..1]).unwrap();
        assert_eq!(packed[0], 0x02);
    }

    #[test]
    fn refusals_of_packing() {
        let refused = |numbers: &[u32], length: usize| {
            let mut output = vec![9; length];
            let fault = pack(width(6), numbers, &mut output).unwrap_err();
            assert_eq!(output, vec![9; length]);
            (fault.number(), fault.place())
        };
        assert_eq!(refused(&[64; 4], 2), (1, 4));
        assert_eq!(refused(&[64; 4], 4), (1, 4));
        assert_eq!(refused(&[64; 4], 3), (2, 0));
        assert_eq!(refused(&[63, 63, u32::MAX, 64], 3), (2, 2));
        assert_eq!(refused(&[0, 0, 0, 64], 3), (2, 3));
        assert_eq!(refused(&[], 1), (1, 4));
        // 40 and 24 fit, and so does what they have in common or together.
        assert_eq!(refused(&[40, 24, 63, 1 << 31], 3), (2, 3));

        for (bytes, count) in [(2, 4), (4, 4), (3, 5), (3, 2), (1, 0), (0, 1)] {
            let mut numbers = vec![9; count];
            assert_eq!(unpack(width(6), &vec![0; bytes], &mut numbers), Err(Fault::WrongLength(Argument::First)));
            assert_eq!(numbers, vec![9; count]);
        }
    }

    #[test]
    fn lengths() {
        for (kind, expected) in [
            (Kind::Offer, [32, 32, 797, 797, 477, 477]),
            (Kind::Answer, [17, 17, 845, 909, 493, 525]),
            (Kind::Confirmation, [9; 6]),
        ] {
            assert_eq!(Profile::HOUSE.map(|profile| kind.length(profile)), expected);
        }
    }

    #[test]
    fn the_worked_example_is_written() {
        let mut output = [0xa5; 32];
        write_offer(T_DING, 1, &SEED, &OFFERED, &mut output).unwrap();
        assert_eq!(output, OFFER);
        let mut output = [0xa5; 17];
        write_answer(T_DING, 1, &ANSWERED, &SIGNALS, &mut output).unwrap();
        assert_eq!(output, ANSWER);
        let mut output = [0xa5; 9];
        write_confirmation(T_DING, 1, &mut output).unwrap();
        assert_eq!(output, CONFIRMATION);
    }

    #[test]
    fn the_worked_example_is_read() {
        let mut numbers = [9; 4];

        let offer = read_offer(T_DING, &OFFER).unwrap();
        assert_eq!(offer.round, 1);
        assert_eq!(offer.head, Section { offset: 2, bytes: &OFFER[2..9] });
        assert_eq!(offer.seed, Section { offset: 11, bytes: &SEED });
        assert_eq!(offer.values, Section { offset: 29, bytes: &[0x18, 0x1c, 0x00] });
        unpack(T_DING.value_width(), offer.values.bytes, &mut numbers).unwrap();
        assert_eq!(numbers, OFFERED);

        let answer = read_answer(T_DING, &ANSWER).unwrap();
        assert_eq!(answer.round, 1);
        assert_eq!(answer.head, Section { offset: 2, bytes: &ANSWER[2..9] });
        assert_eq!(answer.values, Section { offset: 11, bytes: &[0x00, 0x26, 0x07] });
        assert_eq!(answer.signals, Section { offset: 16, bytes: &[0x02] });
        unpack(T_DING.value_width(), answer.values.bytes, &mut numbers).unwrap();
        assert_eq!(numbers, ANSWERED);
        unpack(T_DING.signal_width(), answer.signals.bytes, &mut numbers).unwrap();
        assert_eq!(numbers, SIGNALS);

        let confirmation = read_confirmation(T_DING, &CONFIRMATION).unwrap();
        assert_eq!(confirmation.round, 1);
        assert_eq!(confirmation.head, Section { offset: 2, bytes: &CONFIRMATION[2..] });
    }

    #[test]
    fn sections_are_stretches_of_the_message() {
        let mut random = Random::new(6);
        for profile in Profile::HOUSE {
            let message = written(Kind::Offer, profile, 1, &mut random);
            let Offer { head, seed, values, .. } = read_offer(profile, &message).unwrap();
            let answer = written(Kind::Answer, profile, 1, &mut random);
            let Answer { head: answer_head, values: answer_values, signals, .. } =
                read_answer(profile, &answer).unwrap();
            for (message, sections) in
                [(&message, [head, seed, values]), (&answer, [answer_head, answer_values, signals])]
            {
                for Section { offset, bytes } in sections {
                    assert!(ptr::eq(bytes, &message[offset..offset + bytes.len()]));
                }
            }
        }
    }

    #[test]
    fn every_round_and_random_parts_come_back() {
        let mut random = Random::new(7);
        for profile in Profile::HOUSE {
            for round in [0, 1, 258, 1 << 31, u32::MAX] {
                for kind in Kind::ALL {
                    let message = written(kind, profile, round, &mut random);
                    assert_eq!(read(kind, profile, &message), Ok(round), "{kind:?} of {}", profile.name());
                }
            }
        }
    }

    #[test]
    fn refusals_of_writing() {
        let told = |result: Result<(), Fault>| result.map_err(|fault| (fault.layer(), fault.number(), fault.place()));
        let offer = |values: &[u32], length: usize| {
            let mut output = vec![9; length];
            let told = told(write_offer(T_OKCN, 1, &SEED, values, &mut output));
            assert_eq!(output, vec![9; length]);
            told
        };
        assert_eq!(offer(&[64; 3], 31), Err((1, 1, 1)));
        assert_eq!(offer(&[64; 5], 32), Err((1, 1, 1)));
        assert_eq!(offer(&[64; 4], 31), Err((1, 1, 4)));
        assert_eq!(offer(&[64; 4], 33), Err((1, 1, 4)));
        assert_eq!(offer(&[64; 4], 32), Err((1, 2, 0)));
        assert_eq!(offer(&[63, 63, 63, 64], 32), Err((1, 2, 3)));

        let answer = |values: &[u32], signals: &[u32], length: usize| {
            let mut output = vec![9; length];
            let told = told(write_answer(T_OKCN, 1, values, signals, &mut output));
            assert_eq!(output, vec![9; length]);
            told
        };
        assert_eq!(answer(&[64; 3], &[4; 3], 16), Err((1, 1, 1)));
        assert_eq!(answer(&[64; 4], &[4; 3], 16), Err((1, 1, 2)));
        assert_eq!(answer(&[64; 4], &[4; 4], 16), Err((1, 1, 4)));
        assert_eq!(answer(&[64; 4], &[4; 4], 17), Err((1, 2, 0)));
        assert_eq!(answer(&[63, 63, 64, 63], &[4; 4], 17), Err((1, 2, 2)));
        assert_eq!(answer(&[63; 4], &[4; 4], 17), Err((1, 2, 4)));
        assert_eq!(answer(&[63; 4], &[3, 3, 3, u32::MAX], 17), Err((1, 2, 7)));

        for length in [0, 8, 10] {
            let mut output = vec![9; length];
            assert_eq!(told(write_confirmation(T_OKCN, 1, &mut output)), Err((1, 1, 4)));
            assert_eq!(output, vec![9; length]);
        }
    }

    #[test]
    fn cuts_and_extra_bytes() {
        let mut random = Random::new(8);
        for profile in Profile::HOUSE {
            let v = profile.value_width().bytes(profile.n());
            for (kind, begins) in [
                (Kind::Offer, vec![0, 2, 9, 11, 27, 29]),
                (Kind::Answer, vec![0, 2, 9, 11, 11 + v, 13 + v]),
                (Kind::Confirmation, vec![0, 2]),
            ] {
                let mut message = written(kind, profile, 1, &mut random);
                for length in 0..message.len() {
                    // The last place that begins there or before: of a count, until both of its bytes are there.
                    let place = *begins.iter().rfind(|&&place| place <= length).unwrap();
                    assert_eq!(read(kind, profile, &message[..length]), Err((7, place)), "{kind:?} cut to {length}");
                }
                let length = message.len();
                for _ in 0..3 {
                    message.push(0);
                    assert_eq!(read(kind, profile, &message), Err((7, length)));
                }
            }
        }
    }

    #[test]
    fn wrong_counts_hide_what_comes_after() {
        for (kind, message) in WORKED {
            let counts: &[usize] = match kind {
                Kind::Offer => &[0, 9, 27],
                Kind::Answer => &[0, 9, 14],
                Kind::Confirmation => &[0],
            };
            for &at in counts {
                let expected = u16::from_le_bytes([message[at], message[at + 1]]);
                for count in (0..=u16::MAX).filter(|count| *count != expected) {
                    let mut damaged = message.to_vec();
                    damaged[at..at + 2].copy_from_slice(&count.to_le_bytes());
                    assert_eq!(read(kind, T_DING, &damaged), Err((7, at)));
                    assert_eq!(read(kind, T_DING, &damaged[..at + 2]), Err((7, at)));
                }
            }
        }
    }

    #[test]
    fn heads_and_spare_bits() {
        for (kind, message) in WORKED {
            for at in 2..5 {
                let mut damaged = message.to_vec();
                damaged[at..5].fill(0x09);
                assert_eq!(read(kind, T_DING, &damaged), Err((8, at)));
                damaged.push(0);
                assert_eq!(read(kind, T_DING, &damaged), Err((7, message.len())));
            }
        }
        for spare in 1..16 {
            let mut damaged = ANSWER;
            damaged[16] |= spare << 4;
            assert_eq!(read(Kind::Answer, T_DING, &damaged), Err((9, 16)));
            damaged[4] = 2;
            assert_eq!(read(Kind::Answer, T_DING, &damaged), Err((8, 4)));
            // With OKCN these bits are signals.
            assert_eq!(read(Kind::Answer, T_OKCN, &damaged), Ok(1));
        }
    }

    #[test]
    fn messages_of_another_kind_or_profile() {
        let [offer, answer, confirmation] = WORKED.map(|(_, message)| message);
        assert_eq!(read(Kind::Answer, T_DING, offer), Err((7, 9)));
        assert_eq!(read(Kind::Offer, T_DING, answer), Err((7, 9)));
        for message in [offer, answer] {
            assert_eq!(read(Kind::Confirmation, T_DING, message), Err((7, 9)));
        }
        for kind in [Kind::Offer, Kind::Answer] {
            assert_eq!(read(kind, T_DING, confirmation), Err((7, 9)));
        }
        for (kind, message) in WORKED {
            assert_eq!(read(kind, T_OKCN, message), Err((8, 4)));
            let place = match kind {
                Kind::Offer => (7, 27),
                Kind::Answer => (7, 9),
                Kind::Confirmation => (8, 3),
            };
            assert_eq!(read(kind, Profile::HOUSE[2], message), Err(place));
        }
    }
}
