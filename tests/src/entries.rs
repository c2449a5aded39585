//! The table of entries, and an entry's typed fields: `Entries and table`.

use crate::refusal::{ensure, Number, Refusal};
use crate::transaction::{check, read, Entry, Row, Transaction};

/// Checks the bytes and writes three numbers a row into the lent table. Table room is
/// judged after all rules; numbers beyond the rows stay.
pub fn rows<'a>(bytes: &'a [u8], table: &mut [u32]) -> Result<Transaction<'a>, Refusal> {
    let transaction = check(bytes)?;
    ensure(3 * transaction.rows <= table.len(), Number::Room, 0)?;
    let mut free = table.chunks_exact_mut(3);
    read(bytes, |row, _| {
        let numbers = [row.kind as u32, row.start as u32, row.length as u32];
        if let Some(next) = free.next() {
            next.copy_from_slice(&numbers);
        }
    })
}

/// Reads entry `n`, from 0, as typed fields. Bytes that are not accepted get the check's
/// own refusal, which comes before the missing entry.
pub fn entry(bytes: &[u8], n: usize) -> Result<(Transaction<'_>, Row, Entry<'_>), Refusal> {
    let mut before = 0;
    let mut found = None;
    let transaction = read(bytes, |row, entry| {
        if before == n {
            found = Some((row, entry));
        }
        before += 1;
    })?;
    let (row, entry) = found.ok_or(Refusal::placeless(Number::NoSuch))?;
    Ok((transaction, row, entry))
}
