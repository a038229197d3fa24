//! Packing and unpacking.

use compare::message::Width;
use compare::outcome::Outcome;
use compare::random::Random;
use compare::{plain, proved};

use crate::walled::Walled;
use crate::{Difference, brief, holds, same, same_list};

const JUNK: u32 = 0xdead_beef;
const JUNK_BYTE: u8 = 0xa5;

/// Packs on both sides, with junk in the output before, and compares what is left there.
fn compare_pack(width: u32, numbers: &[u32], length: usize) -> Result<(Outcome, Vec<u8>), Difference> {
    let describe = || format!("pack, width {width}, output {length} long, numbers {}", brief(numbers));
    let before = numbers.to_vec();
    let mut output = Walled::new(length, JUNK_BYTE);
    let outcome = proved::pack(width, numbers, output.buffer());

    let mut plain_output = vec![JUNK_BYTE; length];
    let expected = plain::pack(width, numbers, &mut plain_output);

    same(outcome, expected, describe)?;
    same_list(output.buffer(), &plain_output, describe)?;
    holds(output.walls_stand(), "wrote past an end of the output", describe)?;
    holds(numbers == before, "wrote to the numbers", describe)?;
    Ok((outcome, plain_output))
}

/// Unpacks on both sides, with junk in the buffer before, and compares what is left there.
fn compare_unpack(width: u32, bytes: &[u8], count: usize) -> Result<(Outcome, Vec<u32>), Difference> {
    let describe = || format!("unpack, width {width}, {count} numbers, bytes {}", brief(bytes));
    let before = bytes.to_vec();
    let mut numbers = Walled::new(count, JUNK);
    let outcome = proved::unpack(width, bytes, numbers.buffer());

    let mut plain_numbers = vec![JUNK; count];
    let expected = plain::unpack(width, bytes, &mut plain_numbers);

    same(outcome, expected, describe)?;
    same_list(numbers.buffer(), &plain_numbers, describe)?;
    holds(numbers.walls_stand(), "wrote past an end of the numbers", describe)?;
    holds(bytes == before, "wrote to the bytes", describe)?;
    Ok((outcome, plain_numbers))
}

fn widths() -> impl Iterator<Item = Width> {
    (1..=16).map(|bits| Width::new(bits).expect("there is such a width"))
}

/// How many numbers are packed.
fn counts() -> impl Iterator<Item = usize> {
    (0..=40).chain([256, 512, 1024])
}

/// Numbers at the ends of the range and random ones, packed and unpacked, and random bytes, unpacked.
pub fn round_trips(random: &mut Random) -> Result<u64, Difference> {
    let mut cases = 0;
    for width in widths() {
        let (bits, largest) = (width.bits(), width.largest());
        for count in counts() {
            let length = width.bytes(count);
            let mut lists = vec![vec![0; count], vec![largest; count]];
            lists.push((0..count).map(|_| random.pick(&[0, 1, largest / 2, largest - 1, largest])).collect());
            lists.extend((0..20).map(|_| random.numbers(count, largest + 1)));
            for numbers in lists {
                let (outcome, packed) = compare_pack(bits, &numbers, length)?;
                assert_eq!(outcome, Outcome::DONE, "these numbers fit");
                let (outcome, unpacked) = compare_unpack(bits, &packed, count)?;
                assert_eq!(outcome, Outcome::DONE, "so many bytes are right");
                assert_eq!(unpacked, numbers);
                cases += 2;
            }
            for _ in 0..20 {
                compare_unpack(bits, &random.bytes(length), count)?;
                cases += 1;
            }
            compare_unpack(bits, &vec![0xff; length], count)?;
            cases += 1;
        }
    }
    Ok(cases)
}

/// Lengths around the right one, with numbers that fit and that do not.
pub fn wrong_lengths(random: &mut Random) -> Result<u64, Difference> {
    let mut cases = 0;
    for width in widths() {
        let (bits, largest) = (width.bits(), width.largest());
        for count in counts() {
            let right = width.bytes(count);
            let around = |x: usize| [0, x.saturating_sub(2), x.saturating_sub(1), x, x + 1, x + 2, 2 * x, 4 * x];
            let fine = random.numbers(count, largest + 1);
            let too_large = vec![largest + 1; count];
            for length in around(right) {
                compare_pack(bits, &fine, length)?;
                compare_pack(bits, &too_large, length)?;
                cases += 2;
            }
            let bytes = random.bytes(4 * right + 2);
            for length in around(right) {
                for count in around(count) {
                    compare_unpack(bits, &bytes[..length], count)?;
                    cases += 1;
                }
            }
        }
    }
    Ok(cases)
}

/// One number that does not fit, at each place, and then another one somewhere.
pub fn every_place(random: &mut Random) -> Result<u64, Difference> {
    let mut cases = 0;
    for width in widths() {
        let (bits, largest) = (width.bits(), width.largest());
        let too_large = [largest + 1, largest + 2, 2 * largest + 1, 1 << 16, 1 << 31, u32::MAX];
        for count in counts() {
            let length = width.bytes(count);
            let fine = random.numbers(count, largest + 1);
            for place in 0..count {
                let mut numbers = fine.clone();
                numbers[place] = random.pick(&too_large);
                let (outcome, _) = compare_pack(bits, &numbers, length)?;
                assert_eq!(outcome, Outcome(2 << 56 | place as u64), "the one that does not fit is at {place}");
                numbers[random.below(count as u32) as usize] = random.pick(&too_large);
                compare_pack(bits, &numbers, length)?;
                cases += 2;
            }
        }
    }
    Ok(cases)
}

pub fn bad_widths(random: &mut Random) -> Result<u64, Difference> {
    let powers = (5..32).flat_map(|exponent| [(1 << exponent) - 1, 1 << exponent, (1 << exponent) + 1]);
    let widths = (0..=300).chain(powers).chain([u32::MAX - 1, u32::MAX]);
    let mut cases = 0;
    for width in widths {
        for count in [0, 1, 4, 8, 9] {
            let right = (count as u64 * u64::from(width)).div_ceil(8);
            for length in [0, 1, count, right.min(4096) as usize] {
                compare_pack(width, &random.numbers(count, 2), length)?;
                compare_unpack(width, &random.bytes(length), count)?;
                cases += 2;
            }
        }
    }
    Ok(cases)
}
