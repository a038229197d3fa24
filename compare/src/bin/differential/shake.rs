//! SHAKE128.

use compare::random::Random;
use compare::{plain, proved};

use crate::walled::Walled;
use crate::{Difference, holds, same_list};

/// SHAKE128 of the message, at each of the lengths, against the start of the longest.
fn compare_lengths(message: &[u8], lengths: impl Iterator<Item = usize>) -> Result<u64, Difference> {
    let mut expected = [0; 4032];
    plain::shake128(message, &mut expected);
    let mut cases = 0;
    for length in lengths {
        let describe = || format!("SHAKE128 of {} bytes, output {length} bytes", message.len());
        let mut output = Walled::new(length, 0xa5);
        proved::shake128(message, output.buffer());
        same_list(output.buffer(), &expected[..length], describe)?;
        holds(output.walls_stand(), "wrote past an end of the output", describe)?;
        cases += 1;
    }
    Ok(cases)
}

pub fn lengths(random: &mut Random) -> Result<u64, Difference> {
    let mut cases = 0;
    for length in 0..=600 {
        cases += compare_lengths(&random.bytes(length), 0..=700)?;
    }
    Ok(cases)
}

pub fn long(random: &mut Random) -> Result<u64, Difference> {
    let mut cases = 0;
    for length in 0..=600 {
        for message in [random.bytes(length), vec![0; length], vec![0xff; length]] {
            cases += compare_lengths(&message, [1, 4031, 4032].into_iter())?;
        }
    }
    for length in [1679, 1680, 4032, 10_000, 100_000, 1_000_000] {
        cases += compare_lengths(&random.bytes(length), [168, 4032].into_iter())?;
    }
    Ok(cases)
}
