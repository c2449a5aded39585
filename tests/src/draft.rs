//! Filling and merging drafts: `Drafts, slots, merging`.

use std::ops::Range;

use crate::cursor::Cursor;
use crate::element::{Credential, SIGNATURE};
use crate::refusal::{ensure, Number, Refusal};
use crate::transaction::{check, check_credentials, read, Entry, Transaction};

/// A slot is empty when all of its bytes are zero, not only its first. Most that are not
/// have another byte in their first word.
#[inline(always)]
fn is_empty(slot: &[u8; SIGNATURE]) -> bool {
    let (words, rest) = slot.as_chunks::<8>();
    words.iter().all(|word| *word == [0; 8]) && *rest == [0]
}

/// The bytes that an accepted draft's slots take, credential by credential.
#[inline]
fn credentials<'a>(
    draft: &'a [u8],
    read: &Transaction,
) -> impl Iterator<Item = Range<usize>> + 'a {
    let mut cursor = Cursor::at(draft, read.credentials_at + 4);
    std::iter::from_fn(move || {
        cursor.number32().ok()?;
        let count = cursor.number32().ok()?;
        let start = cursor.place();
        cursor.fields::<SIGNATURE>(count).ok()?;
        Some(start..cursor.place())
    })
}

/// The places of an accepted draft's slots, counted across its credentials.
pub fn slots<'a>(draft: &'a [u8], read: &Transaction) -> impl Iterator<Item = usize> + 'a {
    credentials(draft, read).flat_map(|slots| slots.step_by(SIGNATURE))
}

/// Changes one slot inside a lent draft. 65 zero bytes change nothing and are done.
pub fn fill(draft: &mut [u8], slot_number: usize, signature: &[u8]) -> Result<usize, Refusal> {
    let mut place = None;
    let mut left = slot_number;
    let find = |_, entry| {
        let Entry::Credential(Credential { signatures, .. }) = entry else { return };
        let count = signatures.count as usize;
        if left < count && place.is_none() {
            place = Some(signatures.at + left * SIGNATURE);
        }
        left = left.saturating_sub(count);
    };
    let Ok(Transaction { length, .. }) = read(draft, find) else {
        return Err(Refusal::placeless(Number::FirstDraft));
    };
    let Some(held) = place.and_then(|place| draft[place..].first_chunk_mut()) else {
        return Err(Refusal::placeless(Number::NoSuch));
    };
    let Ok(signature) = <&[u8; SIGNATURE]>::try_from(signature) else {
        return Err(Refusal::placeless(Number::Signature));
    };
    if !is_empty(signature) {
        let agree = is_empty(held) || held == signature;
        ensure(agree, Number::Conflict, slot_number)?;
        *held = *signature;
    }
    Ok(length)
}

/// Merges two drafts into the front of the output buffer. Nothing is written before
/// every rule has been judged.
pub fn merge(first: &[u8], second: &[u8], output: &mut [u8]) -> Result<usize, Refusal> {
    let Ok(read) = check(first) else {
        return Err(Refusal::placeless(Number::FirstDraft));
    };
    let body = &first[..read.credentials_at];
    // A body that is accepted already need not be read again.
    let bodies_equal = second.starts_with(body);
    let accepted = match bodies_equal {
        true => check_credentials(second, &read),
        false => check(second).map(drop),
    };
    ensure(accepted.is_ok(), Number::SecondDraft, 0)?;
    ensure(bodies_equal, Number::Body, 0)?;
    // Equal bodies ask for the same credentials, so from here on places are shared.
    let mut number = 0;
    for slots in credentials(first, &read) {
        let [mine, theirs] = [first, second].map(|draft| draft[slots.clone()].as_chunks().0);
        for (mine, theirs) in mine.iter().zip(theirs) {
            let agree = is_empty(mine) || is_empty(theirs) || mine == theirs;
            ensure(agree, Number::Conflict, number)?;
            number += 1;
        }
    }
    ensure(output.len() >= read.length, Number::Room, 0)?;
    let (merged_body, merged) = output[..read.length].split_at_mut(body.len());
    merged_body.copy_from_slice(body);
    // Where the drafts differ, one of them has an empty slot, whose bytes are zero.
    let (mine, theirs) = (&first[body.len()..], &second[body.len()..]);
    for ((merged, mine), theirs) in merged.iter_mut().zip(mine).zip(theirs) {
        *merged = mine | theirs;
    }
    Ok(read.length)
}
