//! The four functions of each profile.

use compare::profile::Profile;
use compare::random::Random;
use compare::{plain, proved};

use crate::{Difference, profiles, same};

fn compare_round(index: u8, x: u32) -> Result<(), Difference> {
    same(proved::round(index, x), plain::round(index, x), || format!("round, profile {index}, x {x}"))
}

fn compare_recover(index: u8, y: u32) -> Result<(), Difference> {
    same(proved::recover(index, y), plain::recover(index, y), || format!("recover, profile {index}, y {y}"))
}

fn compare_reconcile(index: u8, x: u32, coin: u8) -> Result<(), Difference> {
    same(proved::reconcile(index, x, coin), plain::reconcile(index, x, coin), || {
        format!("reconcile, profile {index}, x {x}, coin {coin} (the value is 2 signal + key bit)")
    })
}

fn compare_read(index: u8, y: u32, signal: u8) -> Result<(), Difference> {
    same(proved::read(index, y, signal), plain::read(index, y, signal), || {
        format!("read, profile {index}, y {y}, signal {signal}")
    })
}

// In the groups that go through all residues, the first few that are refused come along.
const MORE: u32 = 10;

pub fn round(_: &mut Random) -> Result<u64, Difference> {
    let mut cases = 0;
    for (index, profile) in profiles() {
        for x in 0..profile.q() + MORE {
            compare_round(index, x)?;
            cases += 1;
        }
    }
    Ok(cases)
}

pub fn recover(_: &mut Random) -> Result<u64, Difference> {
    let mut cases = 0;
    for (index, profile) in profiles() {
        for y in 0..=profile.p() + MORE {
            compare_recover(index, y)?;
            cases += 1;
        }
    }
    Ok(cases)
}

pub fn reconcile(_: &mut Random) -> Result<u64, Difference> {
    let mut cases = 0;
    for (index, profile) in profiles() {
        for x in 0..profile.q() + MORE {
            for coin in 0..profile.coins() {
                compare_reconcile(index, x, coin)?;
                cases += 1;
            }
        }
    }
    Ok(cases)
}

pub fn read(_: &mut Random) -> Result<u64, Difference> {
    let mut cases = 0;
    for (index, profile) in profiles() {
        for y in 0..profile.q() + MORE {
            for signal in 0..profile.signals() {
                compare_read(index, y, signal)?;
                cases += 1;
            }
        }
    }
    Ok(cases)
}

/// Every profile byte with every coin and signal, and numbers on both sides of each limit.
pub fn refusals(random: &mut Random) -> Result<u64, Difference> {
    let mut cases = 0;
    for index in 0..=255 {
        let (q, p) = Profile::house(index).map_or((257, 63), |profile| (profile.q(), profile.p()));
        let mut numbers = vec![0, 1, p - 1, p, p + 1, q - 2, q - 1, q, q + 1, 2 * q, 1 << 23, 1 << 31, u32::MAX];
        numbers.extend(random.numbers(20, u32::MAX));
        numbers.extend(random.numbers(20, q));
        for x in numbers {
            compare_round(index, x)?;
            compare_recover(index, x)?;
            cases += 2;
            for byte in 0..=255 {
                compare_reconcile(index, x, byte)?;
                compare_read(index, x, byte)?;
                cases += 2;
            }
        }
    }
    Ok(cases)
}
