//! Drafts of one transaction, the merge of a list of them by its definition, and groupings.

use std::collections::BTreeMap;

use super::valid::{many_slots, refill, signature, small_transaction};
use super::Random;
use crate::draft::slots;
use crate::element::SIGNATURE;
use crate::transaction::check;

/// The slots' places of a draft, none where it is not accepted.
pub fn places(draft: &[u8]) -> Vec<usize> {
    check(draft).map_or(Vec::new(), |read| slots(draft, &read).collect())
}

/// An accepted draft, most often one with slots, now and then with many.
pub fn draft(random: &mut Random) -> Vec<u8> {
    if random.once_in(200) {
        return many_slots(random);
    }
    let drafts = std::iter::repeat_with(|| small_transaction(random)).take(5);
    let drafts: Vec<_> = drafts.collect();
    let with_slots = drafts.iter().find(|draft| !places(draft).is_empty());
    with_slots.unwrap_or(&drafts[0]).clone()
}

/// Copies of one draft with slots emptied, and where `conflicts` is set at times given
/// another signature.
pub fn copies(random: &mut Random, count: usize, conflicts: bool) -> Vec<Vec<u8>> {
    let whole = draft(random);
    let places = places(&whole);
    let mut others = BTreeMap::new();
    for &place in &places {
        if conflicts && random.once_in(2) {
            others.insert(place, signature(random));
        }
    }
    let mut copies = vec![whole; count];
    for copy in &mut copies {
        refill(random, copy, &places, &others);
    }
    copies
}

/// The merge of drafts of one transaction by its definition, slot by slot; or the first slot
/// that holds two different signatures among them.
pub fn merge_of(drafts: &[&[u8]]) -> Result<Vec<u8>, usize> {
    let mut result = drafts[0].to_vec();
    for (slot, place) in places(drafts[0]).into_iter().enumerate() {
        let held = drafts.iter().map(|draft| &draft[place..place + SIGNATURE]);
        let mut held = held.filter(|held| held.iter().any(|&byte| byte != 0));
        let Some(signature) = held.next() else {
            continue;
        };
        if held.any(|other| other != signature) {
            return Err(slot);
        }
        result[place..place + SIGNATURE].copy_from_slice(signature);
    }
    Ok(result)
}

/// A grouping over a list: one of its drafts, or one merge call of two groupings' results.
pub enum Grouping {
    /// The draft with this number, with no call.
    Draft(usize),
    /// The call's first and second draft.
    Merge(Box<Grouping>, Box<Grouping>),
}

impl Grouping {
    /// A random grouping that uses each of `count` drafts, some of them again.
    pub fn new(random: &mut Random, count: usize) -> Self {
        let again = random.pick(&[0, 0, 1, 1, 2, 3]);
        let used = (0..count).chain((0..again).map(|_| random.below(count)));
        let mut left: Vec<Grouping> = used.map(Grouping::Draft).collect();
        loop {
            let first = left.swap_remove(random.below(left.len()));
            if left.is_empty() {
                return first;
            }
            let second = left.swap_remove(random.below(left.len()));
            left.push(Grouping::Merge(first.into(), second.into()));
        }
    }

    /// Makes its calls; a refused one ends it.
    pub fn run<E>(
        &self,
        drafts: &[Vec<u8>],
        merge: &mut impl FnMut(&[u8], &[u8]) -> Result<Vec<u8>, E>,
    ) -> Result<Vec<u8>, E> {
        match self {
            Grouping::Draft(n) => Ok(drafts[*n].clone()),
            Grouping::Merge(first, second) => {
                let first = first.run(drafts, merge)?;
                let second = second.run(drafts, merge)?;
                merge(&first, &second)
            }
        }
    }
}
