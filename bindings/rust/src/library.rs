//! The functions of the static libraries `phone` and `operator`, over slices.

/// An upload's state: how many bytes are stored, and the refusal that stands as number × 2^32 +
/// place, 0 if none does. A fresh start is two zeros.
pub type UploadState = [u64; 2];

mod c {
    use super::UploadState;

    extern "C" {
        pub fn cellfacet_check(bytes: *const u8, length: usize) -> u64;
        pub fn cellfacet_merge(
            first: *const u8,
            first_length: usize,
            second: *const u8,
            second_length: usize,
            out: *mut u8,
            out_length: usize,
        ) -> u64;
        pub fn cellfacet_rows(
            bytes: *const u8,
            length: usize,
            table: *mut u32,
            room: usize,
        ) -> u64;
        pub fn cellfacet_slots(
            bytes: *const u8,
            length: usize,
            table: *mut u32,
            room: usize,
        ) -> u64;
        pub fn cellfacet_upload_piece(
            state: &mut UploadState,
            store: *mut u8,
            store_length: usize,
            piece: *const u8,
            piece_length: usize,
        ) -> u64;
        pub fn cellfacet_upload_end(
            state: &UploadState,
            store: *const u8,
            store_length: usize,
        ) -> u64;
    }
}

/// Number × 2^32 + place.
pub fn check(bytes: &[u8]) -> u64 {
    // SAFETY: pointer and length are those of a slice, which nothing writes to while it is
    // borrowed; the function asks for nothing else.
    unsafe { c::cellfacet_check(bytes.as_ptr(), bytes.len()) }
}

/// Number × 2^32 + place.
pub fn merge(first: &[u8], second: &[u8], out: &mut [u8]) -> u64 {
    // SAFETY: pointers and lengths are those of slices. `out` is borrowed mutably, so that it
    // shares no byte with the others; the function asks for nothing else.
    unsafe {
        c::cellfacet_merge(
            first.as_ptr(),
            first.len(),
            second.as_ptr(),
            second.len(),
            out.as_mut_ptr(),
            out.len(),
        )
    }
}

/// The rows written, or number × 2^32 + place.
pub fn rows(bytes: &[u8], table: &mut [u32]) -> u64 {
    // SAFETY: pointers and lengths are those of slices. `table` is borrowed mutably, so that it
    // shares no byte with the other; the function asks for nothing else.
    unsafe { c::cellfacet_rows(bytes.as_ptr(), bytes.len(), table.as_mut_ptr(), table.len()) }
}

/// The rows written, or number × 2^32 + place.
pub fn slots(bytes: &[u8], table: &mut [u32]) -> u64 {
    // SAFETY: as for `rows`.
    unsafe { c::cellfacet_slots(bytes.as_ptr(), bytes.len(), table.as_mut_ptr(), table.len()) }
}

/// Number × 2^32 + place, where 2 at 0 is no refusal.
pub fn upload_piece(state: &mut UploadState, store: &mut [u8], piece: &[u8]) -> u64 {
    // SAFETY: pointers and lengths are those of slices. `store` and `state` are borrowed mutably,
    // so that they share no byte with each other or with `piece`; the function asks for nothing
    // else.
    unsafe {
        c::cellfacet_upload_piece(
            state,
            store.as_mut_ptr(),
            store.len(),
            piece.as_ptr(),
            piece.len(),
        )
    }
}

/// Number × 2^32 + place.
pub fn upload_end(state: &UploadState, store: &[u8]) -> u64 {
    // SAFETY: pointer and length are those of a slice, which nothing writes to while it is
    // borrowed, nor to `state`; the function asks for nothing else.
    unsafe { c::cellfacet_upload_end(state, store.as_ptr(), store.len()) }
}
