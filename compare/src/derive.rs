//! Byte sources, and the element that a seed gives by one.

use crate::fault::{Argument, Fault};
use crate::ring::Ring;
use crate::shake::{RATE, Sponge};

pub type Seed = [u8; 16];

/// Means a finite list of bytes for each seed, and reads it. Before it has begun it gives nothing.
pub trait ByteSource {
    /// Goes to the start of the seed's list.
    fn begin(&mut self, seed: &Seed);

    /// The next byte, or nothing once the list is used up.
    fn next(&mut self) -> Option<u8>;
}

/// SHAKE128 of the seed, cut at 24 blocks.
#[derive(Debug)]
pub struct ShakeSource {
    sponge: Sponge,
    block: [u8; RATE],
    /// The next byte of the block.
    at: usize,
    /// How many blocks come after this one.
    blocks_left: usize,
}

impl ShakeSource {
    pub const BLOCKS: usize = 24;

    /// A source that has not begun.
    pub fn new() -> ShakeSource {
        ShakeSource { sponge: Sponge::ZERO, block: [0; RATE], at: RATE, blocks_left: 0 }
    }
}

impl Default for ShakeSource {
    fn default() -> ShakeSource {
        ShakeSource::new()
    }
}

impl ByteSource for ShakeSource {
    fn begin(&mut self, seed: &Seed) {
        self.sponge = Sponge::absorb(seed);
        self.sponge.copy_to(&mut self.block);
        self.at = 0;
        self.blocks_left = Self::BLOCKS - 1;
    }

    fn next(&mut self) -> Option<u8> {
        if self.at == RATE {
            self.blocks_left = self.blocks_left.checked_sub(1)?;
            self.sponge.permute();
            self.sponge.copy_to(&mut self.block);
            self.at = 0;
        }
        let byte = self.block[self.at];
        self.at += 1;
        Some(byte)
    }
}

/// The same bytes for every seed.
#[derive(Debug)]
pub struct Tape<'a> {
    bytes: &'a [u8],
    /// What has not been read yet.
    left: &'a [u8],
}

impl<'a> Tape<'a> {
    /// A tape that has not begun.
    pub fn new(bytes: &'a [u8]) -> Tape<'a> {
        Tape { bytes, left: &[] }
    }
}

impl ByteSource for Tape<'_> {
    fn begin(&mut self, _: &Seed) {
        self.left = self.bytes;
    }

    fn next(&mut self) -> Option<u8> {
        self.left.split_off_first().copied()
    }
}

/// The element that the seed gives by the source. Refused, the output is as it was.
pub fn derive(ring: Ring, source: &mut impl ByteSource, seed: &Seed, output: &mut [u32]) -> Result<(), Fault> {
    let (n, q) = (ring.n(), ring.q());
    if output.len() != n {
        return Err(Fault::WrongLength(Argument::Output));
    }
    let bits = (q - 1).ilog2() + 1;
    let bytes = bits.div_ceil(8);
    let low_bits = (1 << bits) - 1;

    source.begin(seed);
    let mut kept = Vec::with_capacity(n);
    while kept.len() < n {
        let number = group(source, bytes).ok_or(Fault::SourceSpent(kept.len()))? & low_bits;
        if number < q {
            kept.push(number);
        }
    }
    output.copy_from_slice(&kept);
    Ok(())
}

/// The number that the next bytes are, the lowest first, or nothing where they are not all there.
fn group(source: &mut impl ByteSource, bytes: u32) -> Option<u32> {
    let mut number = 0;
    for i in 0..bytes {
        number |= u32::from(source.next()?) << (8 * i);
    }
    Some(number)
}

#[cfg(test)]
mod tests {
    use super::*;
    use crate::profile::Profile;
    use crate::shake::shake128;

    const SEED: Seed = *b"sixteen bytes ..";

    fn all_bytes(source: &mut impl ByteSource) -> Vec<u8> {
        std::iter::from_fn(|| source.next()).collect()
    }

    #[test]
    fn a_worked_element() {
        let tape = [0xff, 0xff, 0x64, 0x00, 0xc8, 0x00, 0x05, 0x00, 0x00, 0x00];
        let ring = Profile::HOUSE[0].ring();
        let mut output = [9; 4];
        derive(ring, &mut Tape::new(&tape), &SEED, &mut output).unwrap();
        assert_eq!(output, [100, 200, 5, 0]);
        for length in 0..tape.len() {
            let mut output = [9; 4];
            let refused = derive(ring, &mut Tape::new(&tape[..length]), &SEED, &mut output);
            assert_eq!(refused, Err(Fault::SourceSpent((length / 2).saturating_sub(1))));
            assert_eq!(output, [9; 4]);
        }
    }

    #[test]
    fn shake_is_cut_at_4032_bytes() {
        let mut expected = [0; 4032];
        shake128(&SEED, &mut expected);
        let mut source = ShakeSource::new();
        assert_eq!(source.next(), None);
        for _ in 0..2 {
            source.begin(&SEED);
            assert_eq!(all_bytes(&mut source), expected);
            assert_eq!(source.next(), None);
        }
    }

    #[test]
    fn a_tape_begins_again() {
        let mut tape = Tape::new(b"abc");
        assert_eq!(tape.next(), None);
        tape.begin(&SEED);
        assert_eq!(tape.next(), Some(b'a'));
        tape.begin(&[0; 16]);
        assert_eq!(all_bytes(&mut tape), b"abc");
    }

    #[test]
    fn numbers_of_three_bytes() {
        // At W: the low 23 bits, so that 0xffe000 is q - 1 = 0x7fe000, and 0x7fe001 is dropped.
        let ring = Profile::HOUSE[4].ring();
        let tape = [[0x00, 0xe0, 0xff], [0x01, 0xe0, 0x7f], [0x03, 0x02, 0x01]].concat().repeat(128);
        let mut output = [9; 256];
        derive(ring, &mut Tape::new(&tape), &SEED, &mut output).unwrap();
        assert!(output.as_chunks().0.iter().all(|pair| *pair == [0x7fe000, 0x010203]));
    }

    #[test]
    fn the_output_is_looked_at_first() {
        for profile in Profile::HOUSE {
            for length in [0, profile.n() - 1, profile.n() + 1] {
                let refused = derive(profile.ring(), &mut Tape::new(&[]), &SEED, &mut vec![9; length]);
                assert_eq!(refused, Err(Fault::WrongLength(Argument::Output)));
            }
        }
    }
}
