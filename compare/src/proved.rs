//! The proved library's exported functions.
//!
//! Nothing checks these declarations against the library: they say what `libexports_c.a` is expected to have.

use crate::outcome::Outcome;

unsafe extern "C" {
    fn exported_multiply(
        row_sum: u8,
        n: usize,
        q: u32,
        left: *const u32,
        left_len: usize,
        right: *const u32,
        right_len: usize,
        scratch: *mut u32,
        scratch_len: usize,
        output: *mut u32,
        output_len: usize,
    ) -> u64;

    fn exported_shake128(message: *const u8, message_len: usize, output: *mut u8, output_len: usize);

    fn exported_derive_tape(profile: u8, tape: *const u8, tape_len: usize, output: *mut u32, output_len: usize) -> u64;

    fn exported_derive_shake(profile: u8, seed: *const u8, seed_len: usize, output: *mut u32, output_len: usize)
    -> u64;

    safe fn exported_round(profile: u8, x: u32) -> u64;
    safe fn exported_recover(profile: u8, y: u32) -> u64;
    safe fn exported_reconcile(profile: u8, x: u32, coin: u8) -> u64;
    safe fn exported_read(profile: u8, y: u32, signal: u8) -> u64;

    fn exported_pack(width: u32, numbers: *const u32, numbers_len: usize, output: *mut u8, output_len: usize) -> u64;

    fn exported_unpack(width: u32, bytes: *const u8, bytes_len: usize, numbers: *mut u32, numbers_len: usize) -> u64;

    fn exported_write_offer(
        profile: u8,
        round: u32,
        seed: *const u8,
        seed_len: usize,
        values: *const u32,
        values_len: usize,
        output: *mut u8,
        output_len: usize,
    ) -> u64;

    fn exported_write_answer(
        profile: u8,
        round: u32,
        values: *const u32,
        values_len: usize,
        signals: *const u32,
        signals_len: usize,
        output: *mut u8,
        output_len: usize,
    ) -> u64;

    fn exported_write_confirmation(profile: u8, round: u32, output: *mut u8, output_len: usize) -> u64;

    fn exported_read_offer(
        profile: u8,
        message: *const u8,
        message_len: usize,
        seed: *mut u8,
        seed_len: usize,
        values: *mut u32,
        values_len: usize,
    ) -> u64;

    fn exported_read_answer(
        profile: u8,
        message: *const u8,
        message_len: usize,
        values: *mut u32,
        values_len: usize,
        signals: *mut u32,
        signals_len: usize,
    ) -> u64;

    fn exported_read_confirmation(profile: u8, message: *const u8, message_len: usize) -> u64;
}

/// By schoolbook where `row_sum` is 0, and by row sum otherwise.
pub fn multiply(
    row_sum: u8,
    n: usize,
    q: u32,
    left: &[u32],
    right: &[u32],
    scratch: &mut [u32],
    output: &mut [u32],
) -> Outcome {
    // SAFETY: each pointer goes with the length of its own slice, and the two that are written to are borrowed alone.
    Outcome(unsafe {
        exported_multiply(
            row_sum,
            n,
            q,
            left.as_ptr(),
            left.len(),
            right.as_ptr(),
            right.len(),
            scratch.as_mut_ptr(),
            scratch.len(),
            output.as_mut_ptr(),
            output.len(),
        )
    })
}

pub fn shake128(message: &[u8], output: &mut [u8]) {
    // SAFETY: as in `multiply`.
    unsafe { exported_shake128(message.as_ptr(), message.len(), output.as_mut_ptr(), output.len()) }
}

pub fn derive_tape(profile: u8, tape: &[u8], output: &mut [u32]) -> Outcome {
    // SAFETY: as in `multiply`.
    Outcome(unsafe { exported_derive_tape(profile, tape.as_ptr(), tape.len(), output.as_mut_ptr(), output.len()) })
}

pub fn derive_shake(profile: u8, seed: &[u8], output: &mut [u32]) -> Outcome {
    // SAFETY: as in `multiply`.
    Outcome(unsafe { exported_derive_shake(profile, seed.as_ptr(), seed.len(), output.as_mut_ptr(), output.len()) })
}

pub fn round(profile: u8, x: u32) -> Outcome {
    Outcome(exported_round(profile, x))
}

pub fn recover(profile: u8, y: u32) -> Outcome {
    Outcome(exported_recover(profile, y))
}

/// The value is the key bit and, times 2, the signal.
pub fn reconcile(profile: u8, x: u32, coin: u8) -> Outcome {
    Outcome(exported_reconcile(profile, x, coin))
}

pub fn read(profile: u8, y: u32, signal: u8) -> Outcome {
    Outcome(exported_read(profile, y, signal))
}

pub fn pack(width: u32, numbers: &[u32], output: &mut [u8]) -> Outcome {
    // SAFETY: as in `multiply`.
    Outcome(unsafe { exported_pack(width, numbers.as_ptr(), numbers.len(), output.as_mut_ptr(), output.len()) })
}

pub fn unpack(width: u32, bytes: &[u8], numbers: &mut [u32]) -> Outcome {
    // SAFETY: as in `multiply`.
    Outcome(unsafe { exported_unpack(width, bytes.as_ptr(), bytes.len(), numbers.as_mut_ptr(), numbers.len()) })
}

pub fn write_offer(profile: u8, round: u32, seed: &[u8], values: &[u32], output: &mut [u8]) -> Outcome {
    // SAFETY: as in `multiply`.
    Outcome(unsafe {
        exported_write_offer(
            profile,
            round,
            seed.as_ptr(),
            seed.len(),
            values.as_ptr(),
            values.len(),
            output.as_mut_ptr(),
            output.len(),
        )
    })
}

pub fn write_answer(profile: u8, round: u32, values: &[u32], signals: &[u32], output: &mut [u8]) -> Outcome {
    // SAFETY: as in `multiply`.
    Outcome(unsafe {
        exported_write_answer(
            profile,
            round,
            values.as_ptr(),
            values.len(),
            signals.as_ptr(),
            signals.len(),
            output.as_mut_ptr(),
            output.len(),
        )
    })
}

pub fn write_confirmation(profile: u8, round: u32, output: &mut [u8]) -> Outcome {
    // SAFETY: as in `multiply`.
    Outcome(unsafe { exported_write_confirmation(profile, round, output.as_mut_ptr(), output.len()) })
}

/// Accepted, the value is the round, and the buffers hold the seed and the rounded values.
pub fn read_offer(profile: u8, message: &[u8], seed: &mut [u8], values: &mut [u32]) -> Outcome {
    // SAFETY: as in `multiply`.
    Outcome(unsafe {
        exported_read_offer(
            profile,
            message.as_ptr(),
            message.len(),
            seed.as_mut_ptr(),
            seed.len(),
            values.as_mut_ptr(),
            values.len(),
        )
    })
}

/// Accepted, the value is the round, and the buffers hold the rounded values and the signals.
pub fn read_answer(profile: u8, message: &[u8], values: &mut [u32], signals: &mut [u32]) -> Outcome {
    // SAFETY: as in `multiply`.
    Outcome(unsafe {
        exported_read_answer(
            profile,
            message.as_ptr(),
            message.len(),
            values.as_mut_ptr(),
            values.len(),
            signals.as_mut_ptr(),
            signals.len(),
        )
    })
}

/// Accepted, the value is the round.
pub fn read_confirmation(profile: u8, message: &[u8]) -> Outcome {
    // SAFETY: as in `multiply`.
    Outcome(unsafe { exported_read_confirmation(profile, message.as_ptr(), message.len()) })
}
