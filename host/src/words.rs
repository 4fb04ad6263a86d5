//! Lists of records as the lists of numbers that they are, without a copy. All `unsafe` code of the crate is in this file and in
//! src/exported.rs, which says of which records this holds.

#![allow(unsafe_code)]

use crate::Outcome;

/// Records that are 64-bit numbers and nothing else.
///
/// # Safety
///
/// The type is `#[repr(C)]` and made of `u64` alone: it has no bytes between them, and any numbers make one.
pub unsafe trait Words: Copy {}

/// How many numbers a list of records is.
fn count<T: Words>(records: &[T]) -> usize {
    std::mem::size_of_val(records) / std::mem::size_of::<u64>()
}

/// The numbers of a list of records, without a copy.
pub fn words<T: Words>(records: &[T]) -> &[u64] {
    // SAFETY: the records are so many numbers one after the other, and stay borrowed as long as the numbers are.
    unsafe { std::slice::from_raw_parts(records.as_ptr().cast(), count(records)) }
}

/// The same, to be written: any numbers make records.
pub fn words_mut<T: Words>(records: &mut [T]) -> &mut [u64] {
    // SAFETY: as above; any numbers that are written make records again.
    unsafe { std::slice::from_raw_parts_mut(records.as_mut_ptr().cast(), count(records)) }
}

/// The numbers of a list of outcomes.
pub fn outcome_bytes(outcomes: &[Outcome]) -> &[u8] {
    // SAFETY: `Outcome` is `#[repr(u8)]`, so each is one byte, and they stay borrowed as long as the bytes are.
    unsafe { std::slice::from_raw_parts(outcomes.as_ptr().cast(), outcomes.len()) }
}
