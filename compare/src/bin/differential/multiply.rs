//! Both multipliers.

use compare::outcome::Outcome;
use compare::random::Random;
use compare::ring::{Karatsuba, Multiplier, Ring};
use compare::{plain, proved};

use crate::walled::Walled;
use crate::{Difference, brief, holds, same, same_list};

const MODULI: [u32; 5] = [3, 257, 12289, 8380417, (1 << 23) - 1];

const SCHOOLBOOK: u8 = 0;
const ROW_SUM: u8 = 1;

/// Every n that a ring can have, with each of the moduli.
fn rings() -> impl Iterator<Item = (usize, u32)> {
    (0..=10).flat_map(|exponent| MODULI.map(|q| (1 << exponent, q)))
}

/// Each number of the one list with each of the other.
fn pairs(one: &[usize], other: &[usize]) -> impl Iterator<Item = (usize, usize)> {
    one.iter().flat_map(|&x| other.iter().map(move |&y| (x, y)))
}

/// The words of scratch that the multiplier needs.
fn need(row_sum: u8, n: usize) -> usize {
    if row_sum == SCHOOLBOOK { 0 } else { 2 * n }
}

/// A call of multiply: its lists, and the lengths of its buffers.
struct Call<'a> {
    row_sum: u8,
    n: usize,
    q: u32,
    left: &'a [u32],
    right: &'a [u32],
    scratch: usize,
    output: usize,
}

impl Call<'_> {
    fn describe(&self) -> String {
        let Call { row_sum, n, q, left, right, scratch, output } = *self;
        format!(
            "multiply, row_sum {row_sum}, n {n}, q {q}, scratch {scratch} long, output {output} long\nleft: {}\nright: {}",
            brief(left),
            brief(right)
        )
    }

    /// Makes the call on both sides, with junk in the buffers before, and compares all that it leaves.
    fn compare(&self) -> Result<Outcome, Difference> {
        const JUNK: u32 = 0xdead_beef;
        let Call { row_sum, n, q, left, right, .. } = *self;
        let describe = || self.describe();

        let mut scratch = Walled::new(self.scratch, JUNK);
        let mut output = Walled::new(self.output, JUNK);
        let (left_before, right_before) = (left.to_vec(), right.to_vec());
        let outcome = proved::multiply(row_sum, n, q, left, right, scratch.buffer(), output.buffer());

        let mut plain_scratch = vec![JUNK; self.scratch];
        let mut plain_output = vec![JUNK; self.output];
        let expected = plain::multiply(row_sum, n, q, left, right, &mut plain_scratch, &mut plain_output);

        same(outcome, expected, describe)?;
        same_list(output.buffer(), &plain_output, describe)?;
        let word = if outcome == Outcome::NO_CALL { JUNK } else { 0 };
        same_list(scratch.buffer(), &vec![word; self.scratch], || format!("{}\nin scratch:", describe()))?;
        if outcome == Outcome::DONE {
            let karatsuba = Karatsuba(Ring::new(n, q).expect("there is such a ring"));
            karatsuba.multiply(left, right, &mut [], &mut plain_output).expect("they are elements");
            same_list(output.buffer(), &plain_output, || format!("{}\nby Karatsuba's rule:", describe()))?;
        }
        holds(scratch.walls_stand(), "wrote past an end of scratch", describe)?;
        holds(output.walls_stand(), "wrote past an end of the output", describe)?;
        holds(left == left_before && right == right_before, "wrote to a list", describe)?;
        Ok(outcome)
    }
}

/// The product of two elements by both multipliers, with scratch as long as needed and longer. The result is how many
/// cases these are.
fn compare_product(n: usize, q: u32, left: &[u32], right: &[u32]) -> Result<u64, Difference> {
    let calls = [(SCHOOLBOOK, 0), (ROW_SUM, 0), (SCHOOLBOOK, 3), (ROW_SUM, 1)];
    for (row_sum, more) in calls {
        let scratch = need(row_sum, n) + more;
        let call = Call { row_sum, n, q, left, right, scratch, output: n };
        let outcome = call.compare()?;
        holds(outcome == Outcome::DONE, "refused two elements", || call.describe())?;
    }
    Ok(calls.len() as u64)
}

/// All pairs of elements of rings with few of them.
pub fn all_small_products(_: &mut Random) -> Result<u64, Difference> {
    let mut cases = 0;
    for (n, q) in [(1, 3), (1, 5), (1, 257), (2, 3), (2, 5), (2, 7), (4, 3)] {
        let size = q as usize;
        let elements = size.pow(n);
        let element = |index: usize| (0..n).map(|i| (index / size.pow(i) % size) as u32).collect::<Vec<_>>();
        for left in 0..elements {
            for right in 0..elements {
                cases += compare_product(n as usize, q, &element(left), &element(right))?;
            }
        }
    }
    Ok(cases)
}

pub fn products(random: &mut Random) -> Result<u64, Difference> {
    let mut cases = 0;
    for (n, q) in rings() {
        let zero = vec![0; n];
        let largest = vec![q - 1; n];
        let alternating: Vec<u32> = (0..n).map(|i| if i % 2 == 0 { q - 1 } else { 1 }).collect();
        let single = |place: usize, x: u32| {
            let mut element = vec![0; n];
            element[place] = x;
            element
        };
        let edges = [0, 1, q / 2, q / 2 + 1, q - 2, q - 1];

        for other in [&zero, &largest, &alternating, &random.numbers(n, q)] {
            for one in [&zero, &largest, &alternating, &single(0, 1), &single(n - 1, 1), &single(n - 1, q - 1)] {
                cases += compare_product(n, q, one, other)?;
                cases += compare_product(n, q, other, one)?;
            }
        }
        for _ in 0..4 {
            let place = random.below(n as u32) as usize;
            let x = random.below(q);
            cases += compare_product(n, q, &single(place, x), &random.numbers(n, q))?;
            let [left, right] = [(); 2].map(|()| (0..n).map(|_| random.pick(&edges)).collect::<Vec<_>>());
            cases += compare_product(n, q, &left, &right)?;
        }
        for _ in 0..8 {
            cases += compare_product(n, q, &random.numbers(n, q), &random.numbers(n, q))?;
        }
        // One list on both sides, in the same memory; and other numbers that stand for row sum.
        let element = random.numbers(n, q);
        cases += compare_product(n, q, &element, &element)?;
        for row_sum in [2, 128, 255] {
            let scratch = need(row_sum, n);
            Call { row_sum, n, q, left: &element, right: &largest, scratch, output: n }.compare()?;
            cases += 1;
        }
    }
    Ok(cases)
}

/// Lists and buffers too short, right and too long, in all combinations, with numbers that are all fine, and with numbers
/// that are all out of range.
pub fn wrong_lengths(random: &mut Random) -> Result<u64, Difference> {
    let mut cases = 0;
    for (n, q) in rings() {
        let fine = random.numbers(2 * n, q);
        let too_large = vec![q; 2 * n];
        let mut lengths = vec![0, n - 1, n, n + 1, 2 * n];
        lengths.dedup();
        for row_sum in [SCHOOLBOOK, ROW_SUM] {
            let need = need(row_sum, n);
            let mut scratches = vec![0, need.saturating_sub(1), need, need + 1];
            scratches.dedup();
            for list in [&fine, &too_large] {
                for (left, right) in pairs(&lengths, &lengths) {
                    for (scratch, output) in pairs(&scratches, &lengths) {
                        let (left, right) = (&list[..left], &list[..right]);
                        Call { row_sum, n, q, left, right, scratch, output }.compare()?;
                        cases += 1;
                    }
                }
            }
        }
    }
    Ok(cases)
}

/// The numbers that are tried where only one below q is allowed.
fn too_large(q: u32) -> [u32; 5] {
    [q, q + 1, 1 << 23, 1 << 31, u32::MAX]
}

/// One number out of range, at each place of the left and of the right list.
pub fn every_place(random: &mut Random) -> Result<u64, Difference> {
    let mut cases = 0;
    for (n, q) in rings() {
        let element = random.numbers(n, q);
        for place in 0..2 * n {
            let mut lists = [element.as_slice(), element.as_slice()].concat();
            lists[place] = random.pick(&too_large(q));
            let (left, right) = lists.split_at(n);
            for row_sum in [SCHOOLBOOK, ROW_SUM] {
                let call = Call { row_sum, n, q, left, right, scratch: need(row_sum, n), output: n };
                let expected = Outcome(2 << 56 | place as u64);
                same(call.compare()?, expected, || call.describe())?;
                cases += 1;
            }
        }
    }
    Ok(cases)
}

/// Up to two numbers out of range, or just in range, at the ends and in the middle of the lists.
pub fn several_places(random: &mut Random) -> Result<u64, Difference> {
    let mut cases = 0;
    for (n, q) in rings() {
        let element = random.numbers(2 * n, q);
        let mut places = vec![0, n / 2, n - 1, n, n + n / 2, 2 * n - 1];
        places.dedup();
        for (first, second) in pairs(&places, &places) {
            for x in too_large(q).into_iter().chain([q - 1]) {
                let mut lists = element.clone();
                lists[first] = x;
                lists[second] = random.pick(&[q - 1, q, u32::MAX]);
                let (left, right) = lists.split_at(n);
                for row_sum in [SCHOOLBOOK, ROW_SUM] {
                    let scratch = need(row_sum, n) + 2;
                    Call { row_sum, n, q, left, right, scratch, output: n }.compare()?;
                    cases += 1;
                }
            }
        }
    }
    Ok(cases)
}

/// Numbers n and q around those that a ring can have. The lists are of length n where that is small.
pub fn bad_rings(random: &mut Random) -> Result<u64, Difference> {
    let small_degrees = 0..=2100;
    let large_degrees = [1 << 16, 1 << 31, 1 << 32, (1 << 32) + 4, 1 << 63, usize::MAX - 1, usize::MAX];
    let moduli = [257, 8380417, 0, 2, 256, 1 << 23];
    let by_degree = small_degrees.chain(large_degrees).flat_map(|n| moduli.map(|q| (n, q)));

    let top = 1 << 23;
    let small_moduli = (0..=300).chain(top - 300..top + 300);
    let powers = (9..32).flat_map(|exponent| [(1 << exponent) - 1, 1 << exponent, (1 << exponent) + 1]);
    let large_moduli = powers.chain([u32::MAX - 1, u32::MAX]);
    let by_modulus = small_moduli.chain(large_moduli).flat_map(|q| [1, 4, 3].map(|n| (n, q)));

    let mut cases = 0;
    for (n, q) in by_degree.chain(by_modulus) {
        let length = if n <= 2100 { n } else { 4 };
        let element = random.numbers(length, q.max(1));
        for row_sum in [SCHOOLBOOK, ROW_SUM] {
            let call = Call { row_sum, n, q, left: &element, right: &element, scratch: 2 * length, output: length };
            call.compare()?;
            cases += 1;
        }
    }
    Ok(cases)
}
