//! Times the proved library against this crate's own implementation: the same calls on the same input in one run.

use std::array;
use std::hint::black_box;
use std::time::{Duration, Instant};

use compare::derive::Seed;
use compare::message::Kind;
use compare::outcome::Outcome;
use compare::profile::Profile;
use compare::random::Random;
use compare::{plain, proved};

const ROUNDS: usize = 101;

/// The index of the profile S Ding.
const S_DING: u8 = 2;

/// How long each call is repeated in a round, at least.
const ROUND_TIME: Duration = Duration::from_millis(2);

/// What a call takes, in microseconds.
struct Times {
    proved: f64,
    plain: f64,
}

fn main() {
    println!(
        "Medians of {ROUNDS} rounds. In each of them both sides are timed in turn, on the same input and buffers."
    );
    println!("Buffers are not cleared between iterations, beyond what the calls do themselves.");
    println!();
    println!("{:24} {:>12} {:>12} {:>14}", "", "proved, us", "plain, us", "proved / plain");

    let random = &mut Random::new(1);
    let numbers = [("T", Profile::HOUSE[0]), ("S", Profile::HOUSE[2]), ("W", Profile::HOUSE[4])];
    let [_, (schoolbook, row_sum), _] = numbers.map(|(name, profile)| {
        let (schoolbook, row_sum) = multiply(profile, random);
        report(&format!("schoolbook at {name}"), &schoolbook);
        report(&format!("row sum at {name}"), &row_sum);
        (schoolbook, row_sum)
    });
    let seed = random.seed();
    report("SHAKE128, 4032 bytes", &shake128(&seed));
    report("derive at S, by SHAKE128", &derive(&seed));
    let (packing, unpacking) = pack(random);
    report("pack at S", &packing);
    report("unpack at S", &unpacking);
    let (writing, reading) = answer(random);
    report("write an answer at S", &writing);
    report("read an answer at S", &reading);

    println!();
    println!(
        "row sum / schoolbook at S: proved {:.2}, plain {:.2}",
        row_sum.proved / schoolbook.proved,
        row_sum.plain / schoolbook.plain
    );
}

fn report(name: &str, times: &Times) {
    let Times { proved, plain } = times;
    println!("{name:24} {proved:12.3} {plain:12.3} {:14.2}", proved / plain);
}

/// Both multipliers, schoolbook first.
fn multiply(profile: Profile, random: &mut Random) -> (Times, Times) {
    type Multiply = fn(u8, usize, u32, &[u32], &[u32], &mut [u32], &mut [u32]) -> Outcome;
    let (n, q) = (profile.n(), profile.q());
    let left = random.numbers(n, q);
    let right = random.numbers(n, q);
    let mut scratch = vec![0; 2 * n];
    let mut output = vec![0; n];
    let calls: [(Multiply, u8); 4] =
        [(proved::multiply, 0), (plain::multiply, 0), (proved::multiply, 1), (plain::multiply, 1)];

    let [a, b, c, d] = in_turns(calls, |(multiply, row_sum)| {
        // No more scratch than is needed, since all of it is cleared.
        let scratch = if row_sum == 0 { &mut scratch[..0] } else { &mut scratch[..] };
        let (left, right) = (black_box(&left), black_box(&right));
        let outcome = multiply(row_sum, n, q, left, right, black_box(scratch), black_box(&mut output));
        assert_eq!(outcome, Outcome::DONE);
    });
    (Times { proved: a, plain: b }, Times { proved: c, plain: d })
}

fn shake128(message: &[u8]) -> Times {
    type Shake128 = fn(&[u8], &mut [u8]);
    let mut output = vec![0; 4032];
    let calls: [Shake128; 2] = [proved::shake128, plain::shake128];
    let [proved, plain] = in_turns(calls, |shake128| shake128(black_box(message), black_box(&mut output)));
    Times { proved, plain }
}

fn derive(seed: &Seed) -> Times {
    type Derive = fn(u8, &[u8], &mut [u32]) -> Outcome;
    let mut output = vec![0; Profile::HOUSE[usize::from(S_DING)].n()];
    let calls: [Derive; 2] = [proved::derive_shake, plain::derive_shake];
    let [proved, plain] = in_turns(calls, |derive| {
        let outcome = derive(S_DING, black_box(seed), black_box(&mut output));
        assert_eq!(outcome, Outcome::DONE);
    });
    Times { proved, plain }
}

/// Packing and unpacking as many rounded values as a message of S has.
fn pack(random: &mut Random) -> (Times, Times) {
    type Pack = fn(u32, &[u32], &mut [u8]) -> Outcome;
    type Unpack = fn(u32, &[u8], &mut [u32]) -> Outcome;
    let profile = Profile::HOUSE[usize::from(S_DING)];
    let width = profile.value_width();
    let numbers = random.numbers(profile.n(), profile.p() + 1);
    let mut bytes = vec![0; width.bytes(numbers.len())];

    let calls: [Pack; 2] = [proved::pack, plain::pack];
    let [proved, plain] = in_turns(calls, |pack| {
        let outcome = pack(black_box(width.bits()), black_box(&numbers), black_box(&mut bytes));
        assert_eq!(outcome, Outcome::DONE);
    });
    let packing = Times { proved, plain };

    let mut unpacked = vec![0; numbers.len()];
    let calls: [Unpack; 2] = [proved::unpack, plain::unpack];
    let [proved, plain] = in_turns(calls, |unpack| {
        let outcome = unpack(black_box(width.bits()), black_box(&bytes), black_box(&mut unpacked));
        assert_eq!(outcome, Outcome::DONE);
    });
    assert_eq!(unpacked, numbers);
    (packing, Times { proved, plain })
}

/// Writing an answer from its parts, and reading it, which unpacks the rounded values and the signals.
fn answer(random: &mut Random) -> (Times, Times) {
    type Write = fn(u8, u32, &[u32], &[u32], &mut [u8]) -> Outcome;
    type Read = fn(u8, &[u8], &mut [u32], &mut [u32]) -> Outcome;
    const ROUND: u32 = 1;
    let profile = Profile::HOUSE[usize::from(S_DING)];
    let values = random.numbers(profile.n(), profile.p() + 1);
    let signals = random.numbers(profile.n(), profile.signals().into());
    let mut message = vec![0; Kind::Answer.length(profile)];

    let calls: [Write; 2] = [proved::write_answer, plain::write_answer];
    let [proved, plain] = in_turns(calls, |write| {
        let (values, signals) = (black_box(&values), black_box(&signals));
        let outcome = write(S_DING, ROUND, values, signals, black_box(&mut message));
        assert_eq!(outcome, Outcome::DONE);
    });
    let writing = Times { proved, plain };

    let mut values_read = vec![0; values.len()];
    let mut signals_read = vec![0; signals.len()];
    let calls: [Read; 2] = [proved::read_answer, plain::read_answer];
    let [proved, plain] = in_turns(calls, |read| {
        let (values, signals) = (black_box(&mut values_read), black_box(&mut signals_read));
        let outcome = read(S_DING, black_box(&message), values, signals);
        assert_eq!(outcome, Outcome(ROUND.into()));
    });
    assert_eq!((values_read, signals_read), (values, signals));
    (writing, Times { proved, plain })
}

/// What each of the calls takes, in microseconds: the median over the rounds, in each of which every call is repeated
/// equally often.
fn in_turns<C: Copy, const N: usize>(calls: [C; N], mut make: impl FnMut(C)) -> [f64; N] {
    let mut round = |iterations: u32| {
        calls.map(|call| {
            let start = Instant::now();
            for _ in 0..iterations {
                make(call);
            }
            start.elapsed()
        })
    };
    // Twice as many iterations, until they take long enough. This warms up all calls, too.
    let mut iterations = 1;
    while round(iterations).into_iter().any(|time| time < ROUND_TIME) {
        iterations *= 2;
    }
    let rounds: [[Duration; N]; ROUNDS] = array::from_fn(|_| round(iterations));
    array::from_fn(|call| {
        let mut times = rounds.map(|round| round[call]);
        times.sort();
        times[ROUNDS / 2].as_secs_f64() * 1e6 / f64::from(iterations)
    })
}
