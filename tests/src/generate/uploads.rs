//! Bytes cut into pieces, and stores to upload them into.

use std::fmt;

use super::damage::damaged;
use super::valid::{of_length, small_transaction};
use super::Random;
use crate::lines::Hex;
use crate::transaction::LIMIT;

/// Longer bytes are cut into a few pieces only: each piece asks for a check of all before it.
const SHORT: usize = 4096;

/// An upload: its pieces, and the length of its store.
pub struct Cutting {
    /// The length of the store.
    pub store: usize,
    /// The pieces, some of them empty.
    pub pieces: Vec<Vec<u8>>,
}

impl Cutting {
    /// The bytes cut anywhere, at times with more pieces behind them, and a store that is too
    /// small, just large enough, or larger.
    pub fn of(random: &mut Random, bytes: &[u8]) -> Self {
        let mut pieces: Vec<_> = cut(random, bytes).into_iter().map(<[u8]>::to_vec).collect();
        if random.once_in(5) {
            more(random, &mut pieces);
        }
        let store = store(random, &pieces);
        Cutting { store, pieces }
    }
}

impl fmt::Display for Cutting {
    fn fmt(&self, f: &mut fmt::Formatter) -> fmt::Result {
        write!(f, "upload {}", self.store)?;
        self.pieces.iter().try_for_each(|piece| write!(f, " {}", Hex(piece)))
    }
}

/// Bytes about as long as can be, or longer: accepted but for their length, followed by more,
/// damaged, or cut short.
pub fn near_limit(random: &mut Random) -> Vec<u8> {
    let length = LIMIT + random.below(5) - 2;
    let mut bytes = of_length(random, length);
    match random.below(4) {
        0 => bytes = damaged(random, bytes),
        1 => bytes.extend(vec![0; 1 + random.below(5)]),
        2 => bytes.truncate(length - 1 - random.below(3)),
        _ => {}
    }
    bytes
}

/// The bytes in pieces, some of them empty: whole, in single bytes, or cut at some places.
pub fn cut<'a>(random: &mut Random, bytes: &'a [u8]) -> Vec<&'a [u8]> {
    let mut places = match random.below(8) {
        0 => Vec::new(),
        1 if bytes.len() <= SHORT => (1..bytes.len()).collect(),
        _ => some_places(random, bytes.len()),
    };
    // A place that stands twice gives an empty piece, and so do the ends.
    if random.once_in(3) {
        places.extend([0, bytes.len()].iter().take(1 + random.below(2)));
        places.extend(places.first().copied());
    }
    places.sort_unstable();
    let starts = std::iter::once(0).chain(places.iter().copied());
    let ends = places.iter().copied().chain([bytes.len()]);
    starts.zip(ends).map(|(start, end)| &bytes[start..end]).collect()
}

/// Places anywhere, or close to the end, where rules are judged late.
fn some_places(random: &mut Random, length: usize) -> Vec<usize> {
    let count = 1 + random.few();
    let place = |_| match random.below(4) {
        0 => length.saturating_sub(random.below(4)),
        _ => random.below(length + 1),
    };
    (0..count).map(place).collect()
}

/// Pieces behind the bytes, which are often refused by then: empty ones, a few bytes, or
/// another draft.
fn more(random: &mut Random, pieces: &mut Vec<Vec<u8>>) {
    for _ in 0..1 + random.below(3) {
        pieces.push(match random.below(4) {
            0 => Vec::new(),
            1 => small_transaction(random),
            _ => {
                let length = random.below(6);
                random.bytes(length)
            }
        });
    }
}

/// The length of a store: for all pieces, for some of them, for none, or more.
fn store(random: &mut Random, pieces: &[Vec<u8>]) -> usize {
    let joined: usize = pieces.iter().map(Vec::len).sum();
    let some = random.below(pieces.len() + 1);
    let front: usize = pieces[..some].iter().map(Vec::len).sum();
    match random.below(10) {
        0 => front + random.below(2),
        1 => joined.saturating_sub(1),
        2 => random.below(joined + 1),
        3..=5 => joined + 1 + random.below(20),
        6 if random.once_in(20) => LIMIT + random.below(100),
        _ => joined,
    }
}
