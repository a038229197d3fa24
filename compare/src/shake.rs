//! SHAKE128, as in FIPS 202.

use std::iter::zip;

/// The bytes of a block: 21 of the 25 lanes.
pub const RATE: usize = 168;

/// SHAKE128 of the message, as many bytes as the output has.
pub fn shake128(message: &[u8], output: &mut [u8]) {
    let mut sponge = Sponge::absorb(message);
    let mut blocks = output.chunks_mut(RATE);
    if let Some(first) = blocks.next() {
        sponge.copy_to(first);
    }
    for block in blocks {
        sponge.permute();
        sponge.copy_to(block);
    }
}

/// The state of Keccak-f[1600]. The lane (x, y) is number x + 5 y.
#[derive(Clone, Debug)]
pub struct Sponge {
    lanes: [u64; 25],
}

impl Sponge {
    /// The state before any message.
    pub const ZERO: Sponge = Sponge { lanes: [0; 25] };

    /// The state after the whole message with its padding: it holds the first block of output.
    pub fn absorb(message: &[u8]) -> Sponge {
        let mut sponge = Sponge::ZERO;
        let (blocks, rest) = message.as_chunks::<RATE>();
        for block in blocks {
            sponge.add(block);
            sponge.permute();
        }
        let mut last = [0; RATE];
        last[..rest.len()].copy_from_slice(rest);
        last[rest.len()] = 0x1f;
        last[RATE - 1] |= 0x80;
        sponge.add(&last);
        sponge.permute();
        sponge
    }

    /// Adds a block to the first lanes, bit by bit.
    fn add(&mut self, block: &[u8; RATE]) {
        for (lane, bytes) in zip(&mut self.lanes, block.as_chunks().0) {
            *lane ^= u64::from_le_bytes(*bytes);
        }
    }

    /// The first bytes of the state, as many as the output has, and at most a block.
    pub fn copy_to(&self, output: &mut [u8]) {
        let (whole, rest) = output.as_chunks_mut();
        let last = self.lanes[whole.len()].to_le_bytes();
        for (bytes, lane) in zip(whole, self.lanes) {
            *bytes = lane.to_le_bytes();
        }
        rest.copy_from_slice(&last[..rest.len()]);
    }

    /// Keccak-f[1600], two rounds at a time, there and back between two states.
    pub fn permute(&mut self) {
        let mut here = self.lanes;
        let mut there = [0; 25];
        for [first, second] in ROUND_CONSTANTS {
            round(&here, &mut there, first);
            round(&there, &mut here, second);
        }
        self.lanes = here;
    }
}

/// How far each lane is turned to the left.
const TURNS: [u32; 25] = [
    0, 1, 62, 28, 27, //
    36, 44, 6, 55, 20, //
    3, 10, 43, 25, 39, //
    41, 45, 15, 21, 8, //
    18, 2, 61, 56, 14,
];

const ROUND_CONSTANTS: [[u64; 2]; 12] = [
    [0x0000_0000_0000_0001, 0x0000_0000_0000_8082],
    [0x8000_0000_0000_808a, 0x8000_0000_8000_8000],
    [0x0000_0000_0000_808b, 0x0000_0000_8000_0001],
    [0x8000_0000_8000_8081, 0x8000_0000_0000_8009],
    [0x0000_0000_0000_008a, 0x0000_0000_0000_0088],
    [0x0000_0000_8000_8009, 0x0000_0000_8000_000a],
    [0x0000_0000_8000_808b, 0x8000_0000_0000_008b],
    [0x8000_0000_0000_8089, 0x8000_0000_0000_8003],
    [0x8000_0000_0000_8002, 0x8000_0000_0000_0080],
    [0x0000_0000_0000_800a, 0x8000_0000_8000_000a],
    [0x8000_0000_8000_8081, 0x8000_0000_0000_8080],
    [0x0000_0000_8000_0001, 0x8000_0000_8000_8008],
];

/// One round, unrolled. Each new row is made at once from the five lanes that move into it.
#[inline(always)]
fn round(old: &[u64; 25], new: &mut [u64; 25], constant: u64) {
    // Theta: the columns' parities, and what each column is added.
    let parity = [
        old[0] ^ old[5] ^ old[10] ^ old[15] ^ old[20],
        old[1] ^ old[6] ^ old[11] ^ old[16] ^ old[21],
        old[2] ^ old[7] ^ old[12] ^ old[17] ^ old[22],
        old[3] ^ old[8] ^ old[13] ^ old[18] ^ old[23],
        old[4] ^ old[9] ^ old[14] ^ old[19] ^ old[24],
    ];
    let column = [
        parity[4] ^ parity[1].rotate_left(1),
        parity[0] ^ parity[2].rotate_left(1),
        parity[1] ^ parity[3].rotate_left(1),
        parity[2] ^ parity[4].rotate_left(1),
        parity[3] ^ parity[0].rotate_left(1),
    ];
    // Rho and pi: the lane turned, at the place that it moves to. Chi: five such lanes, mixed to a row.
    let moved = |lane: usize| (old[lane] ^ column[lane % 5]).rotate_left(TURNS[lane]);
    let mixed = |[a, b, c, d, e]: [u64; 5]| [a ^ (!b & c), b ^ (!c & d), c ^ (!d & e), d ^ (!e & a), e ^ (!a & b)];
    let rows = new.as_chunks_mut().0;
    rows[0] = mixed([moved(0), moved(6), moved(12), moved(18), moved(24)]);
    rows[1] = mixed([moved(3), moved(9), moved(10), moved(16), moved(22)]);
    rows[2] = mixed([moved(1), moved(7), moved(13), moved(19), moved(20)]);
    rows[3] = mixed([moved(4), moved(5), moved(11), moved(17), moved(23)]);
    rows[4] = mixed([moved(2), moved(8), moved(14), moved(15), moved(21)]);
    // Iota.
    new[0] ^= constant;
}

#[cfg(test)]
mod tests {
    use super::*;

    fn hex(bytes: &[u8]) -> String {
        bytes.iter().map(|byte| format!("{byte:02x}")).collect()
    }

    fn shake128_hex(message: &[u8], bytes: usize) -> String {
        let mut output = vec![0; bytes];
        shake128(message, &mut output);
        hex(&output)
    }

    #[test]
    fn the_empty_message() {
        assert_eq!(
            shake128_hex(b"", 64),
            "7f9c2ba4e88f827d616045507605853ed73b8093f6efbc88eb1a6eacfa66ef26\
             3cb1eea988004b93103cfb0aeefd2a686e01fa4a58e8a3639ca8a1e3f9ae57e2"
        );
    }

    #[test]
    fn the_1600_bit_message() {
        assert_eq!(
            shake128_hex(&[0xa3; 200], 512),
            "131ab8d2b594946b9c81333f9bb6e0ce75c3b93104fa3469d3917457385da037\
             cf232ef7164a6d1eb448c8908186ad852d3f85a5cf28da1ab6fe343817197846\
             7f1c05d58c7ef38c284c41f6c2221a76f12ab1c04082660250802294fb871802\
             13fdef5b0ecb7df50ca1f8555be14d32e10f6edcde892c09424b29f597afc270\
             c904556bfcb47a7d40778d390923642b3cbd0579e60908d5a000c1d08b98ef93\
             3f806445bf87f8b009ba9e94f7266122ed7ac24e5e266c42a82fa1bbefb7b8db\
             0066e16a85e0493f07df4809aec084a593748ac3dde5a6d7aae1e8b6e5352b2d\
             71efbb47d4caeed5e6d633805d2d323e6fd81b4684b93a2677d45e7421c2c6ae\
             a259b855a698fd7d13477a1fe53e5a4a6197dbec5ce95f505b520bcd9570c4a8\
             265a7e01f89c0c002c59bfec6cd4a5c109258953ee5ee70cd577ee217af21fa7\
             0178f0946c9bf6ca8751793479f6b537737e40b6ed28511d8a2d7e73eb75f8da\
             ac912ff906e0ab955b083bac45a8e5e9b744c8506f37e9b4e749a184b30f43eb\
             188d855f1b70d71ff3e50c537ac1b0f8974f0fe1a6ad295ba42f6aec74d123a7\
             abedde6e2c0711cab36be5acb1a5a11a4b1db08ba6982efccd716929a7741cfc\
             63aa4435e0b69a9063e880795c3dc5ef3272e11c497a91acf699fefee206227a\
             44c9fb359fd56ac0a9a75a743cff6862f17d7259ab075216c0699511643b6439"
        );
    }

    /// The bytes 0, 7, 14, .. modulo 256.
    fn sevens(length: usize) -> Vec<u8> {
        (0..length).map(|i| (7 * i) as u8).collect()
    }

    // The values of the next three tests are those of Python's hashlib.

    #[test]
    fn messages_around_the_end_of_a_block() {
        for (length, first) in [
            (166, "42b0e7b08a94f639266e83e604c0c5d9"),
            (167, "0a5cf695ec9308ebd5854fe7527f54f4"),
            (168, "dec4583a33e0fce057b8494de205ff74"),
            (169, "76edbbb3df02d2f72205371c10ae8bfa"),
            (335, "eb4adca7dfd5200f36de3082420e2afb"),
            (336, "afa0cb80d20dcaee3cce77a5a5626849"),
            (337, "029d3434b4871bcbbe40b5ca23de7b19"),
        ] {
            assert_eq!(shake128_hex(&sevens(length), 16), first, "a message of {length} bytes");
        }
    }

    #[test]
    fn every_length_to_600() {
        let mut outputs = Vec::new();
        for length in 0..=600 {
            let mut output = vec![0; length];
            shake128(&sevens(length), &mut output);
            outputs.extend(output);
        }
        assert_eq!(shake128_hex(&outputs, 32), "0783dfa4619d38e1b02b19768627a7a54872e23afdbc120711e46ae4b7047471");
    }

    #[test]
    fn twenty_four_blocks() {
        let mut output = [0; 24 * RATE];
        shake128(&std::array::from_fn::<u8, 16, _>(|i| i as u8), &mut output);
        assert_eq!(hex(&output[24 * RATE - 16..]), "e4ed6b469eb7fde047d6561b8fe2ad81");
    }

    #[test]
    fn a_shorter_output_is_the_start_of_a_longer_one() {
        let mut long = [0; 700];
        shake128(b"Tuvhralk", &mut long);
        for length in 0..long.len() {
            let mut short = vec![0; length];
            shake128(b"Tuvhralk", &mut short);
            assert_eq!(short, long[..length]);
        }
    }
}
