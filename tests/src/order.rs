//! The orders of lists. Bytes are compared by words: neighbours mostly differ in their first
//! word, and then a call of the library's comparison would take longer than all the rest.

use std::cmp::Ordering;

/// An element of a list that strictly increases.
pub trait Element {
    /// Compares two elements.
    fn compare(&self, other: &Self) -> Ordering;
}

impl Element for u32 {
    #[inline(always)]
    fn compare(&self, other: &Self) -> Ordering {
        self.cmp(other)
    }
}

impl<const N: usize> Element for [u8; N] {
    #[inline(always)]
    fn compare(&self, other: &Self) -> Ordering {
        let ((words, rest), (other_words, other_rest)) =
            (self.as_chunks::<8>(), other.as_chunks::<8>());
        for (word, other) in words.iter().zip(other_words) {
            if word != other {
                return u64::from_be_bytes(*word).cmp(&u64::from_be_bytes(*other));
            }
        }
        rest.cmp(other_rest)
    }
}

/// Compares two byte strings.
#[inline(always)]
pub fn compare_strings(a: &[u8], b: &[u8]) -> Ordering {
    match (a.first_chunk::<8>(), b.first_chunk::<8>()) {
        (Some(a), Some(b)) if a != b => a.compare(b),
        _ => a.cmp(b),
    }
}

/// Compares a byte string with one that comes in two parts.
#[inline(always)]
pub fn compare_parts(a: &[u8], b_head: &[u8], b_rest: &[u8]) -> Ordering {
    let (a_head, a_rest) = a.split_at(a.len().min(b_head.len()));
    compare_strings(a_head, b_head).then_with(|| a_rest.cmp(b_rest))
}

/// The number of the first element that is not above the one before it.
#[inline(always)]
pub fn not_above<T: Element>(elements: &[T]) -> Option<usize> {
    for (n, [a, b]) in elements.array_windows().enumerate() {
        if a.compare(b).is_ge() {
            return Some(n + 1);
        }
    }
    None
}
