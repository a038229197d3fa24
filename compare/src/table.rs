//! The table of vectors: published ones of SHAKE128, and those made by this crate's implementation alone. One case to a line,
//! a word and then numbers, and `#` before a comment:
//!
//! - `published`, then a message and its output by SHAKE128 in hexadecimal, where `-` is the empty message;
//! - `shake m d`, then m bytes of the message and d of the output of SHAKE128;
//! - `product n q`, then n numbers of the left factor, n of the right one and n of the product;
//! - `derived P n`, then the 16 bytes of the seed and the n numbers of the element by SHAKE128;
//! - `rounded P x y t`, where y is x rounded and t is y recovered;
//! - `reconciled P x coin signal bit`, and `read P y signal bit`.
//!
//! P is the profile's index, from 0 to 5.

use std::io::{self, Write};

use crate::derive::{Seed, ShakeSource, derive};
use crate::profile::Profile;
use crate::random::Random;
use crate::ring::{Karatsuba, Multiplier, Ring, RowSum, Schoolbook};
use crate::shake::shake128;

/// The published vectors, as they stand beside the other references.
const PUBLISHED: &str = include_str!("../../reference/shake128.txt");

/// Writes the whole table.
pub fn write(mut out: impl Write) -> io::Result<()> {
    out.write_all(PUBLISHED.as_bytes())?;
    let mut table = Table { out };
    let random = &mut Random::new(2024);
    outputs(&mut table, random)?;
    products(&mut table, random)?;
    for (index, profile) in (0..).zip(Profile::HOUSE) {
        derived(&mut table, index, profile, random)?;
    }
    for (index, profile) in (0..).zip(Profile::HOUSE) {
        values(&mut table, index, profile, random)?;
    }
    table.out.flush()
}

struct Table<W: Write> {
    out: W,
}

impl<W: Write> Table<W> {
    fn line(&mut self, word: &str, numbers: &[u32]) -> io::Result<()> {
        write!(self.out, "{word}")?;
        for number in numbers {
            write!(self.out, " {number}")?;
        }
        writeln!(self.out)
    }

    fn product(&mut self, ring: Ring, left: &[u32], right: &[u32]) -> io::Result<()> {
        let head = [ring.n() as u32, ring.q()];
        self.line("product", &[&head, left, right, &product(ring, left, right)].concat())
    }
}

/// Messages and outputs at the edges of blocks.
fn outputs(table: &mut Table<impl Write>, random: &mut Random) -> io::Result<()> {
    for (message, output) in
        [(0, 0), (1, 1), (16, 504), (167, 168), (168, 169), (169, 336), (335, 337), (336, 1), (400, 32)]
    {
        let message = random.bytes(message);
        let mut bytes = vec![0; output];
        shake128(&message, &mut bytes);
        let head = [message.len() as u32, bytes.len() as u32];
        let listed: Vec<u32> = message.iter().chain(&bytes).map(|&byte| u32::from(byte)).collect();
        table.line("shake", &[&head[..], &listed].concat())?;
    }
    Ok(())
}

/// The product, on which all three ways have to agree.
fn product(ring: Ring, left: &[u32], right: &[u32]) -> Vec<u32> {
    let ways: [&dyn Multiplier; 3] = [&Karatsuba(ring), &Schoolbook(ring), &RowSum(ring)];
    let [product, others @ ..] = ways.map(|multiplier| {
        let mut output = vec![0; ring.n()];
        let mut scratch = vec![0; multiplier.need()];
        multiplier.multiply(left, right, &mut scratch, &mut output).expect("they are elements");
        output
    });
    assert!(others.iter().all(|other| *other == product));
    product
}

fn products(table: &mut Table<impl Write>, random: &mut Random) -> io::Result<()> {
    // Small rings, T's among them: the largest numbers, one coefficient alone, and some at random.
    for (n, q) in [(1, 3), (1, 8388607), (2, 12289), (4, 257), (8, 8388607), (16, 12289)] {
        let ring = Ring::new(n, q).expect("there is such a ring");
        let largest = vec![q - 1; n];
        let mut last = vec![0; n];
        last[n - 1] = 1;
        let drawn = random.numbers(n, q);
        table.product(ring, &largest, &largest)?;
        table.product(ring, &drawn, &last)?;
        table.product(ring, &drawn, &largest)?;
        for _ in 0..3 {
            table.product(ring, &random.numbers(n, q), &random.numbers(n, q))?;
        }
    }
    // S and W: random elements, and one times an element of small size, as secrets are.
    for profile in [Profile::HOUSE[2], Profile::HOUSE[4]] {
        let (n, q) = (profile.n(), profile.q());
        table.product(profile.ring(), &random.numbers(n, q), &random.numbers(n, q))?;
        let small: Vec<u32> = (0..n).map(|_| random.pick(&[0, 0, 1, 2, q - 1, q - 2])).collect();
        table.product(profile.ring(), &random.numbers(n, q), &small)?;
    }
    Ok(())
}

fn derived(table: &mut Table<impl Write>, index: u32, profile: Profile, random: &mut Random) -> io::Result<()> {
    let n = profile.n();
    let count = if n > 4 { 1 } else { 4 };
    for _ in 0..count {
        let seed: Seed = random.seed();
        let mut element = vec![0; n];
        derive(profile.ring(), &mut ShakeSource::new(), &seed, &mut element).expect("the source has enough");
        let seed = seed.map(u32::from);
        table.line("derived", &[&[index, n as u32], seed.as_slice(), &element].concat())?;
    }
    Ok(())
}

/// The four functions, around the ends of the regions in which signals and key bits stay the same.
fn values(table: &mut Table<impl Write>, index: u32, profile: Profile, random: &mut Random) -> io::Result<()> {
    let q = profile.q();
    let part = |k: u32, parts: u32| (u64::from(q) * u64::from(k) / u64::from(parts)) as u32;

    // A signal can change after each eighth of the residues, with a coin of 1 one further.
    let mut residues: Vec<u32> = (0..8).flat_map(|k| [0, 1, 2].map(|more| part(k, 8) + more)).collect();
    residues.push(q - 1);
    residues.extend(random.numbers(3, q));
    for &x in &residues {
        let y = profile.round(x).expect("x is a residue");
        let t = profile.recover(y).expect("y is a rounded value");
        table.line("rounded", &[index, x, y, t])?;
    }
    for &x in &residues {
        for coin in 0..profile.coins() {
            let both = profile.reconcile(x, coin).expect("x is a residue, and there is such a coin");
            table.line("reconciled", &[index, x, coin.into(), both.signal.into(), both.key_bit.into()])?;
        }
    }

    // A key bit that is read can change after each second sixteenth, or at the middle and the ends.
    let mut residues: Vec<u32> = (0..8).flat_map(|k| [0, 1].map(|more| part(2 * k + 1, 16) + more)).collect();
    residues.extend([0, 1, q / 2, q / 2 + 1, q - 1]);
    for &y in &residues {
        for signal in 0..profile.signals() {
            let key_bit = profile.read(y, signal).expect("y is a residue, and there is such a signal");
            table.line("read", &[index, y, signal.into(), key_bit.into()])?;
        }
    }
    Ok(())
}
