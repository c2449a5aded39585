//! Signed AVM (X-Chain) transactions, checked, listed, merged and uploaded by proved code.
//!
//! The functions are those of Cellfacet's static libraries, over slices. Any bytes may be
//! passed to any of them: each returns, stays inside the slices, answers as the format's
//! definition says (`docs/FORMAT.md`), and changes nothing if it refuses. None of them
//! checks signatures on the curve, fees, or whether a coin is unspent.
//!
//! A *slot* is the 65 bytes for one signature. A *draft* is an accepted transaction, some of
//! whose slots may still be empty. A *place* is a byte offset, or for [`Reason::Conflict`] the
//! number of a slot.
//!
//! Two keyholders sign copies of one transaction, and the copies are joined:
//!
//! ```
//! # let signed = include_bytes!("../../../tests/data/case-a.tx");
//! # let (mut first, mut second) = (signed.to_vec(), signed.to_vec());
//! # first[327..392].fill(0);
//! # second[262..327].fill(0);
//! let length = cellfacet::check(&first)?;
//! let mut out = vec![0; length];
//! let length = cellfacet::merge(&first, &second, &mut out)?;
//! assert_eq!(&out[..length], signed);
//! # Ok::<(), cellfacet::Refusal>(())
//! ```
//!
//! A draft that arrives in pieces is joined and judged by an [`Upload`].

mod library;
mod refusal;
mod upload;

pub use refusal::{Reason, Refusal};
pub use upload::Upload;

/// The most bytes that a transaction may have.
pub const MOST_BYTES: usize = 65_536;

/// The numbers that a table for any transaction needs: three for each of at most 3,272 entries.
pub const TABLE_NUMBERS: usize = 9_816;

/// The numbers that a table for the slots of any transaction needs: three for each of at most 947.
///
/// An empty type 0 has 58 bytes, an input without indices 84, its credential 8, and each index
/// with its signature 69: (65,536 - 150) / 69, rounded down, is 947. With one imported input the
/// 150 are 186, with one operation 126, and there is room for 947 too.
pub const SLOT_NUMBERS: usize = 2_841;

/// The bytes of a signature.
pub const SIGNATURE: usize = 65;

/// Checks a whole signed transaction: its number of bytes, or the first broken rule.
///
/// ```
/// let signed = include_bytes!("../../../tests/data/case-a.tx");
/// assert_eq!(cellfacet::check(signed), Ok(392));
///
/// let refusal = cellfacet::check(&signed[..391]).unwrap_err();
/// assert_eq!(refusal.to_string(), "2 at 327: field is cut short");
/// ```
///
/// # Errors
/// [`Reason::TooLong`] to [`Reason::BytesAfterEnd`].
pub fn check(bytes: &[u8]) -> Result<usize, Refusal> {
    answered(library::check(bytes))
}

/// Merges two drafts of one unsigned transaction into the front of `out`: the merge's number
/// of bytes. Each slot then holds the signature that either draft holds there, and is empty
/// if it is empty in both. Nothing after the merge changes, and nothing at all on a refusal.
///
/// ```
/// use cellfacet::{merge, Reason};
///
/// let signed = include_bytes!("../../../tests/data/case-a.tx");
/// let mut other = *signed;
/// other[391] = 1; // another signature in slot 1
/// let mut out = [7; 392];
/// let refusal = merge(signed, &other, &mut out).unwrap_err();
/// assert_eq!((refusal.reason, refusal.place), (Reason::Conflict, 1));
/// assert_eq!(out, [7; 392]);
/// ```
///
/// # Errors
/// In this order: [`Reason::FirstNotAccepted`], [`Reason::SecondNotAccepted`],
/// [`Reason::DraftsDiffer`], [`Reason::Conflict`], [`Reason::NoRoom`].
pub fn merge(first: &[u8], second: &[u8], out: &mut [u8]) -> Result<usize, Refusal> {
    answered(library::merge(first, second, out))
}

/// Checks, and writes three numbers for each entry into the lent table: kind, start, length.
/// The answer is the number of entries; numbers beyond the rows keep their values, and on a
/// refusal all of them do.
///
/// ```
/// let mut table = [0; cellfacet::TABLE_NUMBERS];
/// let signed = include_bytes!("../../../tests/data/case-a.tx");
/// assert_eq!(cellfacet::rows(signed, &mut table), Ok(3));
/// assert_eq!(table[..9], [1, 46, 100, 2, 150, 92, 7, 254, 138]);
/// ```
///
/// # Errors
/// As [`check`], and then [`Reason::NoRoom`] if the table is too small.
pub fn rows(bytes: &[u8], table: &mut [u32]) -> Result<usize, Refusal> {
    answered(library::rows(bytes, table))
}

/// What an entry is.
#[derive(Clone, Copy, Debug, PartialEq, Eq, PartialOrd, Ord, Hash)]
#[repr(u32)]
pub enum Kind {
    /// An output of the base part.
    Output = 1,
    /// An input of the base part.
    Input = 2,
    /// An operation.
    Operation = 3,
    /// An imported input.
    ImportedInput = 4,
    /// An exported output.
    ExportedOutput = 5,
    /// An output of an initial state.
    InitialStateOutput = 6,
    /// A credential.
    Credential = 7,
}

impl Kind {
    fn of_number(number: u32) -> Kind {
        match number {
            1 => Kind::Output,
            2 => Kind::Input,
            3 => Kind::Operation,
            4 => Kind::ImportedInput,
            5 => Kind::ExportedOutput,
            6 => Kind::InitialStateOutput,
            7 => Kind::Credential,
            _ => unreachable!("kinds are 1 to 7"),
        }
    }
}

/// An entry of a transaction, and where it is.
#[derive(Clone, Copy, Debug, PartialEq, Eq, Hash)]
pub struct Entry {
    /// What it is.
    pub kind: Kind,
    /// The offset of its first byte.
    pub start: usize,
    /// Its number of bytes.
    pub length: usize,
}

/// The entries of a transaction, in byte order.
///
/// ```
/// use cellfacet::{entries, Kind};
///
/// let entries = entries(include_bytes!("../../../tests/data/case-a.tx"))?;
/// let kinds: Vec<Kind> = entries.iter().map(|entry| entry.kind).collect();
/// assert_eq!(kinds, [Kind::Output, Kind::Input, Kind::Credential]);
/// assert_eq!((entries[2].start, entries[2].length), (254, 138));
/// # Ok::<(), cellfacet::Refusal>(())
/// ```
///
/// # Errors
/// As [`check`].
pub fn entries(bytes: &[u8]) -> Result<Vec<Entry>, Refusal> {
    let mut table = vec![0; TABLE_NUMBERS];
    let count = rows(bytes, &mut table)?;
    let rows = table.chunks_exact(3).take(count);
    let entry = |row: &[u32]| Entry {
        kind: Kind::of_number(row[0]),
        start: row[1] as usize,
        length: row[2] as usize,
    };
    Ok(rows.map(entry).collect())
}

/// Checks, and writes three numbers for each slot into the lent table: its credential, from 0;
/// the offset of its first byte; and 1 if it is filled, 0 if all of its bytes are zero. The
/// answer is the number of slots; numbers beyond the rows keep their values, and on a refusal
/// all of them do.
///
/// ```
/// let mut table = [0; cellfacet::SLOT_NUMBERS];
/// let signed = include_bytes!("../../../tests/data/case-a.tx");
/// assert_eq!(cellfacet::slot_rows(signed, &mut table), Ok(2));
/// assert_eq!(table[..6], [0, 262, 1, 0, 327, 1]);
/// ```
///
/// # Errors
/// As [`check`], and then [`Reason::NoRoom`] if the table is too small.
pub fn slot_rows(bytes: &[u8], table: &mut [u32]) -> Result<usize, Refusal> {
    answered(library::slots(bytes, table))
}

/// The bytes for one signature.
#[derive(Clone, Copy, Debug, PartialEq, Eq, Hash)]
pub struct Slot {
    /// The number of its credential, from 0.
    pub credential: usize,
    /// The offset of its first byte; it has [`SIGNATURE`] of them.
    pub place: usize,
    /// Whether it holds a signature: it is empty if all of its bytes are zero.
    pub filled: bool,
}

/// The slots of a transaction, in the order in which they are numbered from 0.
///
/// ```
/// let mut draft = *include_bytes!("../../../tests/data/case-a.tx");
/// draft[327..].fill(0);
/// let slots = cellfacet::slots(&draft)?;
/// assert_eq!(slots.len(), 2);
/// assert!(slots[0].filled && !slots[1].filled);
/// # Ok::<(), cellfacet::Refusal>(())
/// ```
///
/// # Errors
/// As [`check`].
pub fn slots(bytes: &[u8]) -> Result<Vec<Slot>, Refusal> {
    let mut table = vec![0; SLOT_NUMBERS];
    let count = slot_rows(bytes, &mut table)?;
    let rows = table.chunks_exact(3).take(count);
    let slot = |row: &[u32]| Slot {
        credential: row[0] as usize,
        place: row[1] as usize,
        filled: row[2] == 1,
    };
    Ok(rows.map(slot).collect())
}

/// Takes an answer apart: number × 2^32 + place, where number 0 is no refusal.
fn answered(answer: u64) -> Result<usize, Refusal> {
    let (number, place) = ((answer >> 32) as u32, answer as u32 as usize);
    if number == 0 {
        return Ok(place);
    }
    let reason = Reason::of_number(number).expect("a number of the table");
    Err(Refusal { reason, place })
}
