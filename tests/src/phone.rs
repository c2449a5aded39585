//! The answers the phone program gets: number × 2^32 + place in 64 bits.

use crate::refusal::Refusal;
use crate::{draft, transaction};

fn packed(result: Result<usize, Refusal>) -> u64 {
    match result {
        Ok(place) => place as u64,
        Err(refusal) => (refusal.number as u64) << 32 | refusal.place as u64,
    }
}

/// Checks the bytes, with no table lent.
pub fn check(bytes: &[u8]) -> u64 {
    packed(transaction::check(bytes).map(|transaction| transaction.length))
}

/// Merges two drafts into the output buffer.
pub fn merge(first: &[u8], second: &[u8], output: &mut [u8]) -> u64 {
    packed(draft::merge(first, second, output))
}
