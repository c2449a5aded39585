//! Merges copies of one transaction, from files, into one.

use std::ffi::OsString;
use std::path::Path;

use cellfacet::{Reason, Refusal};

use crate::file;

/// An accepted transaction, and the file it was read from.
struct Draft<'a> {
    path: &'a Path,
    bytes: Vec<u8>,
}

impl Draft<'_> {
    fn read(path: &Path) -> Result<Draft<'_>, String> {
        let bytes = file::read(path)?;
        match cellfacet::check(&bytes) {
            Ok(_) => Ok(Draft { path, bytes }),
            Err(refusal) => Err(format!("{} is not accepted: {refusal}", path.display())),
        }
    }

    /// Whether slot number `slot` holds a signature.
    fn holds(&self, slot: usize) -> bool {
        let slots = cellfacet::slots(&self.bytes).unwrap_or_default();
        slots.get(slot).is_some_and(|slot| slot.filled)
    }
}

/// The merge of all files, of which there is at least one; or the message why there is none.
pub fn merged(files: &[OsString]) -> Result<Vec<u8>, String> {
    let drafts: Result<Vec<_>, _> =
        files.iter().map(|file| Draft::read(file.as_ref())).collect();
    let drafts = drafts?;
    let mut merged = drafts[0].bytes.clone();
    let mut room = vec![0; merged.len()];
    for (before, draft) in drafts.iter().enumerate().skip(1) {
        match cellfacet::merge(&merged, &draft.bytes, &mut room) {
            Ok(_) => merged.copy_from_slice(&room),
            Err(refusal) => return Err(message(refusal, &drafts[..before], draft)),
        }
    }
    Ok(merged)
}

/// The message for a refused merge, with the two files that it is about.
fn message(refusal: Refusal, before: &[Draft], draft: &Draft) -> String {
    let later = draft.path.display();
    if refusal.reason != Reason::Conflict {
        return format!("{refusal}: {} and {later}", before[0].path.display());
    }
    let slot = refusal.place;
    // The first draft with a signature in that slot: the merge so far holds this signature.
    let holder = before.iter().find(|earlier| earlier.holds(slot)).unwrap_or(&before[0]);
    let earlier = holder.path.display();
    format!("20 at {slot}: slot {slot} holds different signatures in {earlier} and {later}")
}
