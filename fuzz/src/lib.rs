//! The independent program's check, merge and upload, for a C program to call beside the proved
//! ones of `include/cellfacet.h`.

use std::slice;

use cellfacet_tests::independent::Independent;
use cellfacet_tests::lines::{Answer, Answers};
use cellfacet_tests::{phone, Upload};

/// The independent answer to `cellfacet_check`.
///
/// # Safety
/// `bytes` points to `length` bytes that may be read.
#[no_mangle]
pub unsafe extern "C" fn independent_check(bytes: *const u8, length: usize) -> u64 {
    // SAFETY: as the caller promises.
    phone::check(unsafe { slice::from_raw_parts(bytes, length) })
}

/// The independent answer to `cellfacet_merge`.
///
/// # Safety
/// The pointers point to as many bytes as the lengths behind them say; those of `out` may be
/// written, and are none of the others.
#[no_mangle]
pub unsafe extern "C" fn independent_merge(
    first: *const u8,
    first_length: usize,
    second: *const u8,
    second_length: usize,
    out: *mut u8,
    out_length: usize,
) -> u64 {
    // SAFETY: as the caller promises.
    let (first, second, out) = unsafe {
        (
            slice::from_raw_parts(first, first_length),
            slice::from_raw_parts(second, second_length),
            slice::from_raw_parts_mut(out, out_length),
        )
    };
    phone::merge(first, second, out)
}

/// A whole upload from a fresh start, in `pieces` pieces: piece n ends at `ends[n]`. Its answer
/// is `answers[n]`, and that of the end comes last, as number × 2^32 + place.
///
/// # Safety
/// `ends` points to `pieces` numbers that never decrease, `bytes` to as many bytes as the last of
/// them says, `store` to `store_length` bytes, `answers` to one number more than there are pieces;
/// those of `store` and `answers` may be written, and are none of the others.
#[no_mangle]
pub unsafe extern "C" fn independent_upload(
    bytes: *const u8,
    ends: *const usize,
    pieces: usize,
    store: *mut u8,
    store_length: usize,
    answers: *mut u64,
) {
    // SAFETY: as the caller promises.
    let (ends, store, answers) = unsafe {
        (
            slice::from_raw_parts(ends, pieces),
            slice::from_raw_parts_mut(store, store_length),
            slice::from_raw_parts_mut(answers, pieces + 1),
        )
    };
    // SAFETY: as the caller promises.
    let bytes = unsafe { slice::from_raw_parts(bytes, ends.last().copied().unwrap_or(0)) };
    let mut upload = Upload::new();
    let mut start = 0;
    for (&end, answer) in ends.iter().zip(&mut *answers) {
        *answer = packed(Independent.piece(&mut upload, store, &bytes[start..end]));
        start = end;
    }
    answers[pieces] = packed(Independent.end(&upload, store));
}

/// Number × 2^32 + place; no number of the table where there is no answer.
fn packed(answer: Option<Answer>) -> u64 {
    answer.map_or(u64::MAX, |answer| u64::from(answer.number) << 32 | answer.place)
}
