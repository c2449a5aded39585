//! A draft that arrives in pieces.

use crate::library::{self, UploadState};
use crate::{answered, Reason, Refusal};

/// An upload: a draft that arrives in pieces is joined in a lent store.
///
/// Each piece is judged by a check of all bytes so far, so the first broken rule is refused at
/// once. A refusal stands: every later call gets it again. The store is borrowed while the
/// upload lasts, so nothing else changes it between the calls.
///
/// ```
/// use cellfacet::Upload;
///
/// let signed = include_bytes!("../../../tests/data/case-a.tx");
/// let mut store = [0; 400];
/// let mut upload = Upload::new(&mut store);
/// for piece in signed.chunks(150) {
///     upload.piece(piece)?;
/// }
/// let length = upload.end()?;
/// assert_eq!(&store[..length], signed);
/// # Ok::<(), cellfacet::Refusal>(())
/// ```
///
/// However the bytes were cut, the end answers as [`check`](crate::check) does for the whole, if
/// they are at most [`MOST_BYTES`](crate::MOST_BYTES) and fit the store. Longer bytes are always
/// refused.
#[derive(Debug)]
pub struct Upload<'a> {
    store: &'a mut [u8],
    state: UploadState,
}

impl<'a> Upload<'a> {
    /// A fresh start over a store, of which no byte changes.
    pub fn new(store: &'a mut [u8]) -> Self {
        Upload { store, state: UploadState::default() }
    }

    /// Copies a piece, which may be empty, behind those before it. `Ok` says that no rule is
    /// broken so far: more is needed, or this was the last piece; [`Upload::end`] says which.
    ///
    /// ```
    /// use cellfacet::{Reason, Upload};
    ///
    /// let mut store = [7; 4];
    /// let mut upload = Upload::new(&mut store);
    /// assert_eq!(upload.piece(&[0]), Ok(()));
    /// let refusal = upload.piece(&[9]).unwrap_err();
    /// assert_eq!((refusal.reason, refusal.place), (Reason::WrongCodec, 0));
    /// // It stands, also where the piece would be a good one.
    /// assert_eq!(upload.piece(&[0]), Err(refusal));
    /// assert_eq!(upload.end(), Err(refusal));
    /// assert_eq!(store, [0, 7, 7, 7]);
    /// ```
    ///
    /// # Errors
    /// The refusal that stands. If there is none: [`Reason::NoRoom`] if the piece does not fit the
    /// store, else as [`check`](crate::check) for the bytes so far, except [`Reason::CutShort`]. A
    /// refused piece is not stored.
    pub fn piece(&mut self, piece: &[u8]) -> Result<(), Refusal> {
        match answered(library::upload_piece(&mut self.state, self.store, piece)) {
            Err(Refusal { reason: Reason::CutShort, .. }) => Ok(()),
            answer => answer.map(drop),
        }
    }

    /// Checks the bytes so far: their number if they are a whole transaction, which is then at
    /// the front of the store. An end changes nothing, so more pieces may follow.
    ///
    /// ```
    /// use cellfacet::{Reason, Upload};
    ///
    /// let signed = include_bytes!("../../../tests/data/case-a.tx");
    /// let mut store = [0; 392];
    /// let mut upload = Upload::new(&mut store);
    /// upload.piece(&signed[..391])?;
    /// assert_eq!(upload.end().unwrap_err().reason, Reason::CutShort);
    /// upload.piece(&signed[391..])?;
    /// assert_eq!(upload.end(), Ok(392));
    /// # Ok::<(), cellfacet::Refusal>(())
    /// ```
    ///
    /// # Errors
    /// The refusal that stands. If there is none: as [`check`](crate::check).
    pub fn end(&self) -> Result<usize, Refusal> {
        answered(library::upload_end(&self.state, self.store))
    }
}
