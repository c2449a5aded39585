//! Uploading a draft in pieces, each copied behind what the lent store holds of it.

use crate::refusal::{ensure, Number, Refusal};
use crate::transaction::{check, LIMIT};

/// An upload's own state. The default is a fresh start.
#[derive(Clone, Copy, Debug, Default, PartialEq, Eq)]
pub struct Upload {
    /// How many bytes of the draft stand at the front of the store.
    stored: usize,
    /// The refusal that pieces and the end are answered with until a fresh start.
    standing: Option<Refusal>,
}

impl Upload {
    /// A fresh start.
    pub const fn new() -> Self {
        Upload { stored: 0, standing: None }
    }

    /// Stores a piece, behind which more is needed; or refuses it, stores nothing, and keeps
    /// the refusal.
    pub fn piece(&mut self, store: &mut [u8], piece: &[u8]) -> Result<(), Refusal> {
        self.standing.map_or(Ok(()), Err)?;
        let joined = append(store, self.stored, piece);
        self.stored = joined.inspect_err(|&refusal| self.standing = Some(refusal))?;
        Ok(())
    }

    /// The check of the bytes joined so far.
    pub fn end(&self, store: &[u8]) -> Result<usize, Refusal> {
        self.standing.map_or(Ok(()), Err)?;
        // Only another store than the last piece's is too short for what is stored.
        let joined = store.get(..self.stored).ok_or(Refusal::placeless(Number::Room))?;
        Ok(check(joined)?.length)
    }
}

/// Puts a piece behind the first `stored` bytes, and judges all of them; answers how many
/// there are then. A refused piece leaves the store as it was.
fn append(store: &mut [u8], stored: usize, piece: &[u8]) -> Result<usize, Refusal> {
    let length = stored.saturating_add(piece.len());
    ensure(length <= store.len(), Number::Room, 0)?;
    // The check would say so too; here no bytes need to be put aside first.
    ensure(length <= LIMIT, Number::TooLong, 0)?;
    let before = store[stored..length].to_vec();
    store[stored..length].copy_from_slice(piece);
    match check(&store[..length]) {
        Err(refusal) if refusal.number != Number::CutShort => {
            store[stored..length].copy_from_slice(&before);
            Err(refusal)
        }
        _ => Ok(length),
    }
}
