//! The functions of the static libraries: of `phone`, as `include/cellfacet.h` has them, the
//! upload of `operator`, and those of `test_exports`, which is there for tests.

/// An upload's state: how many bytes are stored, and the standing refusal as number × 2^32 +
/// place, 0 where none stands. A fresh start is two zeros.
pub type UploadState = [u64; 2];

mod c {
    use super::UploadState;

    extern "C" {
        pub fn cellfacet_check(bytes: *const u8, length: usize) -> u64;
        pub fn cellfacet_merge(
            first: *const u8,
            first_length: usize,
            second: *const u8,
            second_length: usize,
            output: *mut u8,
            room: usize,
        ) -> u64;
        pub fn cellfacet_upload_piece(
            state: &mut UploadState,
            store: *mut u8,
            store_length: usize,
            piece: *const u8,
            piece_length: usize,
        ) -> u64;
        pub fn cellfacet_upload_end(
            state: &UploadState,
            store: *const u8,
            store_length: usize,
        ) -> u64;
        pub fn cellfacet_test_fill(
            draft: *mut u8,
            length: usize,
            slot: u64,
            signature: *const u8,
            signature_length: usize,
            answer: &mut [u64; 2],
        );
        pub fn cellfacet_test_table(
            bytes: *const u8,
            length: usize,
            table: *mut u32,
            room: usize,
        ) -> u64;
        pub fn cellfacet_test_entry(
            bytes: *const u8,
            length: usize,
            n: u64,
            numbers: *mut u64,
            numbers_room: usize,
            asset: *mut u8,
            asset_room: usize,
            txid: *mut u8,
            txid_room: usize,
        );
    }
}

/// Checks a whole transaction: number × 2^32 + place.
pub fn check(bytes: &[u8]) -> u64 {
    // SAFETY: the pointer and the length are those of a slice, which nothing writes to while
    // it is borrowed; the function asks for nothing else.
    unsafe { c::cellfacet_check(bytes.as_ptr(), bytes.len()) }
}

/// Merges two drafts into the front of the output buffer: number × 2^32 + place.
pub fn merge(first: &[u8], second: &[u8], output: &mut [u8]) -> u64 {
    let (output, room) = (output.as_mut_ptr(), output.len());
    // SAFETY: the pointers and the lengths are those of slices, of which the output is borrowed
    // mutably, so that it overlaps neither draft; the function asks for nothing else.
    unsafe {
        c::cellfacet_merge(
            first.as_ptr(),
            first.len(),
            second.as_ptr(),
            second.len(),
            output,
            room,
        )
    }
}

/// Uploads one piece into the lent store: number × 2^32 + place.
pub fn upload_piece(state: &mut UploadState, store: &mut [u8], piece: &[u8]) -> u64 {
    let (store, room) = (store.as_mut_ptr(), store.len());
    // SAFETY: the pointers and the lengths are those of slices, of which the store is borrowed
    // mutably, as the state is, so that neither overlaps another; the function asks for
    // nothing else.
    unsafe { c::cellfacet_upload_piece(state, store, room, piece.as_ptr(), piece.len()) }
}

/// Ends an upload over the lent store: number × 2^32 + place.
pub fn upload_end(state: &UploadState, store: &[u8]) -> u64 {
    // SAFETY: the pointer and the length are those of a slice, which nothing writes to while
    // it is borrowed, as the state is; the function asks for nothing else.
    unsafe { c::cellfacet_upload_end(state, store.as_ptr(), store.len()) }
}

/// Fills a slot of the lent draft: number and place.
pub fn fill(draft: &mut [u8], slot: u64, signature: &[u8]) -> [u64; 2] {
    let mut answer = [0; 2];
    let (draft, length) = (draft.as_mut_ptr(), draft.len());
    let (signature, signature_length) = (signature.as_ptr(), signature.len());
    // SAFETY: the pointers and the lengths are those of slices, of which the draft is borrowed
    // mutably, so that it does not overlap the signature; the function asks for nothing else.
    unsafe {
        c::cellfacet_test_fill(draft, length, slot, signature, signature_length, &mut answer);
    }
    answer
}

/// Checks a whole transaction, and writes three numbers for each entry into the lent table:
/// number × 2^40 + rows × 2^20 + place.
pub fn table(bytes: &[u8], table: &mut [u32]) -> u64 {
    // SAFETY: the pointers and the lengths are those of two slices, of which the second is
    // borrowed mutably, so that they do not overlap; the function asks for nothing else.
    unsafe {
        c::cellfacet_test_table(bytes.as_ptr(), bytes.len(), table.as_mut_ptr(), table.len())
    }
}

/// How many places there are for the numbers of an entry.
pub const NUMBERS: usize = 23;

/// Reads entry `n`: puts its numbers at their places, and its identifiers.
pub fn entry(bytes: &[u8], n: u64, numbers: &mut [u64], asset: &mut [u8], txid: &mut [u8]) {
    // SAFETY: the pointers and the lengths are those of slices, of which all but the first
    // are borrowed mutably, so that none overlap; the function asks for nothing else.
    unsafe {
        c::cellfacet_test_entry(
            bytes.as_ptr(),
            bytes.len(),
            n,
            numbers.as_mut_ptr(),
            numbers.len(),
            asset.as_mut_ptr(),
            asset.len(),
            txid.as_mut_ptr(),
            txid.len(),
        );
    }
}
