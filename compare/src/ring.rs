//! Products of ring elements: lists of n residues modulo q, multiplied modulo x^n + 1 and q.

use std::iter::zip;

use crate::fault::{Argument, Fault};

/// A ring: its n is a power of two from 1 to 1024, its q odd and from 3 to below 2^23.
#[derive(Clone, Copy, Debug, PartialEq, Eq)]
pub struct Ring {
    n: usize,
    q: u32,
}

impl Ring {
    /// `None` where n or q is not allowed.
    pub const fn new(n: usize, q: u32) -> Option<Ring> {
        if n.is_power_of_two() && n <= 1024 && q % 2 == 1 && q >= 3 && q < 1 << 23 { Some(Ring { n, q }) } else { None }
    }

    pub const fn n(self) -> usize {
        self.n
    }

    pub const fn q(self) -> u32 {
        self.q
    }
}

/// A way to multiply in one ring.
pub trait Multiplier {
    fn ring(&self) -> Ring;

    /// How many words of scratch the product needs.
    fn need(&self) -> usize;

    /// The product of two elements. Scratch is as long as the need, and its content is left open.
    fn product(&self, left: &[u32], right: &[u32], scratch: &mut [u32], output: &mut [u32]);

    /// The product of two lists if they are elements and the buffers are long enough; otherwise the output stays as it
    /// was. Scratch is zero in the end.
    fn multiply(&self, left: &[u32], right: &[u32], scratch: &mut [u32], output: &mut [u32]) -> Result<(), Fault> {
        let checked = check(self.ring(), self.need(), left, right, scratch, output);
        if checked.is_ok() {
            self.product(left, right, &mut scratch[..self.need()], output);
        }
        scratch.fill(0);
        checked
    }
}

/// The first reason to refuse.
fn check(ring: Ring, need: usize, left: &[u32], right: &[u32], scratch: &[u32], output: &[u32]) -> Result<(), Fault> {
    let Ring { n, q } = ring;
    if left.len() != n {
        return Err(Fault::WrongLength(Argument::First));
    }
    if right.len() != n {
        return Err(Fault::WrongLength(Argument::Second));
    }
    if scratch.len() < need {
        return Err(Fault::WrongLength(Argument::Scratch));
    }
    if output.len() != n {
        return Err(Fault::WrongLength(Argument::Output));
    }
    match left.iter().chain(right).position(|&x| x >= q) {
        Some(place) => Err(Fault::OutOfRange(place)),
        None => Ok(()),
    }
}

/// Takes the sum for each coefficient in turn.
#[derive(Clone, Copy, Debug)]
pub struct Schoolbook(pub Ring);

impl Multiplier for Schoolbook {
    fn ring(&self) -> Ring {
        self.0
    }

    fn need(&self) -> usize {
        0
    }

    fn product(&self, left: &[u32], right: &[u32], _: &mut [u32], output: &mut [u32]) {
        let Ring { n, q } = self.0;
        let q = u64::from(q);
        // A multiple of q that no sum exceeds, so that the difference stays at or above 0.
        let most = n as u64 * q * q;
        for (k, coefficient) in output.iter_mut().enumerate() {
            let plus = reversed_dot(&left[..=k], &right[..=k]);
            let minus = reversed_dot(&left[k + 1..], &right[k + 1..]);
            *coefficient = ((plus + most - minus) % q) as u32;
        }
    }
}

/// The sum of the products of the first number with the last, the second with the last but one, and so on. By index, since
/// a zip with the reversed list takes longer.
#[allow(clippy::needless_range_loop)]
fn reversed_dot(left: &[u32], right: &[u32]) -> u64 {
    let m = left.len();
    let right = &right[..m];
    let mut sum = 0;
    for i in 0..m {
        sum += u64::from(left[i]) * u64::from(right[m - 1 - i]);
    }
    sum
}

/// Adds up multiples of the right list, turned by one place more for each left coefficient.
#[derive(Clone, Copy, Debug)]
pub struct RowSum(pub Ring);

impl RowSum {
    /// So many sums, of 64 bits each, stand on the stack. Of the shapes that were tried at S - tiles of 4 to 32 sums with one,
    /// two or four rows at a time, and all sums with one or four rows at a time - all sums with four rows took the least time.
    const LARGEST_DEGREE: usize = 1024;
}

/// Adds a multiple of one row.
fn add_one(sums: &mut [u64], x: u32, row: &[u32]) {
    for (sum, &word) in zip(sums, row) {
        *sum += u64::from(x) * u64::from(word);
    }
}

/// Adds multiples of four rows in one pass over the sums.
fn add_four(sums: &mut [u64], x: [u32; 4], rows: [&[u32]; 4]) {
    let n = sums.len();
    let [a, b, c, d] = rows.map(|row| &row[..n]);
    let x = x.map(u64::from);
    for k in 0..n {
        sums[k] += x[0] * u64::from(a[k]) + x[1] * u64::from(b[k]) + x[2] * u64::from(c[k]) + x[3] * u64::from(d[k]);
    }
}

impl Multiplier for RowSum {
    fn ring(&self) -> Ring {
        self.0
    }

    fn need(&self) -> usize {
        2 * self.0.n
    }

    fn product(&self, left: &[u32], right: &[u32], scratch: &mut [u32], output: &mut [u32]) {
        let Ring { n, q } = self.0;
        let (negated, copied) = scratch.split_at_mut(n);
        for (word, &x) in zip(negated, right) {
            *word = if x == 0 { 0 } else { q - x };
        }
        copied.copy_from_slice(right);

        let sums = &mut [0_u64; Self::LARGEST_DEGREE][..n];
        let row = |i: usize| &scratch[n - i..][..n];
        let fours = left.chunks_exact(4);
        let rest = n - fours.remainder().len();
        for (j, &x) in fours.remainder().iter().enumerate() {
            add_one(sums, x, row(rest + j));
        }
        for (four, x) in fours.enumerate() {
            let i = 4 * four;
            add_four(sums, [x[0], x[1], x[2], x[3]], [row(i), row(i + 1), row(i + 2), row(i + 3)]);
        }
        for (coefficient, &sum) in zip(output, &*sums) {
            *coefficient = (sum % u64::from(q)) as u32;
        }
    }
}

/// Multiplies the integer polynomials by Karatsuba's rule, and reduces modulo x^n + 1 and q afterwards. It has nothing
/// in common with the other two but the checks.
#[derive(Clone, Copy, Debug)]
pub struct Karatsuba(pub Ring);

impl Multiplier for Karatsuba {
    fn ring(&self) -> Ring {
        self.0
    }

    fn need(&self) -> usize {
        0
    }

    fn product(&self, left: &[u32], right: &[u32], _: &mut [u32], output: &mut [u32]) {
        let Ring { n, q } = self.0;
        let widened = |list: &[u32]| list.iter().map(|&x| i128::from(x)).collect::<Vec<_>>();
        let product = polynomial_product(&widened(left), &widened(right));
        let (low, high) = product.split_at(n);
        for (coefficient, (low, high)) in zip(output, zip(low, high)) {
            *coefficient = (low - high).rem_euclid(q.into()) as u32;
        }
    }
}

/// The product of two integer polynomials of one length, a power of two. It has twice that length, and ends in a 0.
fn polynomial_product(left: &[i128], right: &[i128]) -> Vec<i128> {
    if let ([x], [y]) = (left, right) {
        return vec![x * y, 0];
    }
    let half = left.len() / 2;
    let (left_low, left_high) = left.split_at(half);
    let (right_low, right_high) = right.split_at(half);
    let added = |low: &[i128], high: &[i128]| zip(low, high).map(|(x, y)| x + y).collect::<Vec<_>>();

    let low = polynomial_product(left_low, right_low);
    let high = polynomial_product(left_high, right_high);
    let both = polynomial_product(&added(left_low, left_high), &added(right_low, right_high));

    let mut product = [low.as_slice(), high.as_slice()].concat();
    for (k, middle) in product[half..3 * half].iter_mut().enumerate() {
        *middle += both[k] - low[k] - high[k];
    }
    product
}

#[cfg(test)]
mod tests {
    use super::*;
    use crate::random::Random;

    fn multipliers(ring: Ring) -> [Box<dyn Multiplier>; 3] {
        [Box::new(Schoolbook(ring)), Box::new(RowSum(ring)), Box::new(Karatsuba(ring))]
    }

    /// The product straight from its definition, by place.
    fn defined(ring: Ring, left: &[u32], right: &[u32]) -> Vec<u32> {
        let Ring { n, q } = ring;
        let q = i128::from(q);
        let mut sums = vec![0; n];
        for (i, &x) in left.iter().enumerate() {
            for (j, &y) in right.iter().enumerate() {
                let sign = if i + j < n { 1 } else { -1 };
                sums[(i + j) % n] += sign * i128::from(x) * i128::from(y);
            }
        }
        sums.iter().map(|sum| sum.rem_euclid(q) as u32).collect()
    }

    #[test]
    fn a_worked_product() {
        let ring = Ring::new(4, 257).unwrap();
        for multiplier in multipliers(ring) {
            let mut output = [7; 4];
            let mut scratch = [7; 8];
            multiplier.multiply(&[1, 2, 3, 4], &[0, 1, 0, 0], &mut scratch, &mut output).unwrap();
            assert_eq!(output, [253, 1, 2, 3]);
            assert_eq!(scratch, [0; 8]);
        }
    }

    #[test]
    fn products_are_as_defined() {
        let mut random = Random::new(2);
        for n in (0..=10).map(|e| 1 << e) {
            for q in [3, 257, 12289, 8380417, (1 << 23) - 1] {
                let ring = Ring::new(n, q).unwrap();
                for bottom in [0, q - 1] {
                    let [left, right] =
                        [(); 2].map(|_| random.numbers(n, q - bottom).iter().map(|x| x + bottom).collect::<Vec<_>>());
                    let expected = defined(ring, &left, &right);
                    for multiplier in multipliers(ring) {
                        let mut scratch = vec![u32::MAX; multiplier.need() + 1];
                        let mut output = vec![u32::MAX; n];
                        multiplier.multiply(&left, &right, &mut scratch, &mut output).unwrap();
                        assert_eq!(output, expected);
                        assert!(scratch.iter().all(|&word| word == 0));
                    }
                }
            }
        }
    }

    #[test]
    fn refusals_come_in_their_order() {
        let ring = Ring::new(4, 257).unwrap();
        let multiplier = RowSum(ring);
        let long = [257; 5];
        let refused = |left: &[u32], right: &[u32], scratch: usize, output: usize| {
            let (mut scratch, mut output) = (vec![9; scratch], vec![9; output]);
            let fault = multiplier.multiply(left, right, &mut scratch, &mut output).unwrap_err();
            assert!(scratch.iter().all(|&word| word == 0));
            assert!(output.iter().all(|&word| word == 9));
            (fault.number(), fault.place())
        };
        assert_eq!(refused(&long, &long, 7, 3), (1, 1));
        assert_eq!(refused(&long[1..], &long, 7, 3), (1, 2));
        assert_eq!(refused(&long[1..], &long[1..], 7, 3), (1, 3));
        assert_eq!(refused(&long[1..], &long[1..], 8, 3), (1, 4));
        assert_eq!(refused(&long[1..], &long[1..], 8, 4), (2, 0));
        assert_eq!(refused(&[0, 256, 256, 257], &long[1..], 9, 4), (2, 3));
        assert_eq!(refused(&[256; 4], &[0, 1, u32::MAX, 257], 9, 4), (2, 6));
    }

    #[test]
    fn rings() {
        for n in [0, 3, 5, 1023, 1025, 2048, usize::MAX] {
            assert_eq!(Ring::new(n, 257), None);
        }
        for q in [0, 1, 2, 4, 256, (1 << 23) - 2, 1 << 23, (1 << 23) + 1, u32::MAX] {
            assert_eq!(Ring::new(4, q), None);
        }
        for (n, q) in [(1, 3), (1024, 3), (1, (1 << 23) - 1), (1024, (1 << 23) - 1)] {
            assert!(Ring::new(n, q).is_some());
        }
    }
}
