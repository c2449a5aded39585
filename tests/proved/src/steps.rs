//! The writer's steps of the static library `test_exports`, which is there for tests.

use cellfacet_tests::lines::{Answer, Step};

/// Six numbers of the writer's state; behind them the last answer's number and place.
type Numbers = [u64; 8];
type Id = [u8; 32];
type OfBytes = unsafe extern "C" fn(&mut Numbers, *mut u8, usize, *const u8, usize);

mod c {
    use super::{Id, Numbers};

    // Behind the numbers each step takes the buffer, as pointer and length.
    extern "C" {
        pub fn cellfacet_test_fresh(numbers: &mut Numbers);
        pub fn cellfacet_test_start(
            numbers: &mut Numbers,
            buffer: *mut u8,
            room: usize,
            kind: u32,
            network: u32,
            chain: &Id,
        );
        pub fn cellfacet_test_output(
            numbers: &mut Numbers,
            buffer: *mut u8,
            room: usize,
            asset: &Id,
            amount: u64,
            locktime: u64,
            threshold: u32,
            addresses: *const u8,
            addresses_length: usize,
        );
        pub fn cellfacet_test_input(
            numbers: &mut Numbers,
            buffer: *mut u8,
            room: usize,
            txid: &Id,
            index: u32,
            asset: &Id,
            amount: u64,
            indices: *const u32,
            indices_count: usize,
        );
        pub fn cellfacet_test_operation(
            numbers: &mut Numbers,
            buffer: *mut u8,
            room: usize,
            bytes: *const u8,
            length: usize,
        );
        pub fn cellfacet_test_state(
            numbers: &mut Numbers,
            buffer: *mut u8,
            room: usize,
            bytes: *const u8,
            length: usize,
        );
        pub fn cellfacet_test_close(numbers: &mut Numbers, buffer: *mut u8, room: usize);
        pub fn cellfacet_test_memo(
            numbers: &mut Numbers,
            buffer: *mut u8,
            room: usize,
            bytes: *const u8,
            length: usize,
        );
        pub fn cellfacet_test_name(
            numbers: &mut Numbers,
            buffer: *mut u8,
            room: usize,
            bytes: *const u8,
            length: usize,
        );
        pub fn cellfacet_test_symbol(
            numbers: &mut Numbers,
            buffer: *mut u8,
            room: usize,
            bytes: *const u8,
            length: usize,
        );
        pub fn cellfacet_test_denomination(
            numbers: &mut Numbers,
            buffer: *mut u8,
            room: usize,
            value: u8,
        );
        pub fn cellfacet_test_chain(
            numbers: &mut Numbers,
            buffer: *mut u8,
            room: usize,
            id: &Id,
        );
        pub fn cellfacet_test_finish(numbers: &mut Numbers, buffer: *mut u8, room: usize);
    }
}

/// The proved writer's state, as it crosses. The default is a fresh writer, on which only `start`
/// is due.
#[derive(Clone, Debug, PartialEq, Eq)]
pub struct Writer(Numbers);

impl Default for Writer {
    fn default() -> Self {
        let mut numbers = [u64::MAX; 8];
        // SAFETY: the numbers are borrowed mutably; the function asks for nothing else.
        unsafe { c::cellfacet_test_fresh(&mut numbers) };
        Writer(numbers)
    }
}

impl Writer {
    /// A state of any numbers.
    pub fn of([kind, phase, at, list, count, last]: [u64; 6]) -> Self {
        Writer([kind, phase, at, list, count, last, 0, 0])
    }

    /// The numbers of the state.
    pub fn state(&self) -> &[u64] {
        &self.0[..6]
    }

    /// Makes one step over the lent buffer.
    pub fn step(&mut self, buffer: &mut [u8], step: &Step) -> Answer {
        let numbers = &mut self.0;
        let (at, room) = (buffer.as_mut_ptr(), buffer.len());
        // SAFETY: the pointers and the lengths are those of slices, of which the buffer is
        // borrowed mutably, as the numbers are, so that neither overlaps another; the
        // functions ask for nothing else.
        unsafe {
            match step {
                Step::Start { type_id, network, chain } => {
                    c::cellfacet_test_start(numbers, at, room, *type_id, *network, chain);
                }
                Step::Output { asset, amount, locktime, threshold, addresses: list } => {
                    let (list, length) = (list.as_ptr(), list.len());
                    c::cellfacet_test_output(
                        numbers, at, room, asset, *amount, *locktime, *threshold, list, length,
                    );
                }
                Step::Input { txid, index, asset, amount, indices: list } => {
                    let (list, count) = (list.as_ptr(), list.len());
                    c::cellfacet_test_input(
                        numbers, at, room, txid, *index, asset, *amount, list, count,
                    );
                }
                Step::Denomination(value) => {
                    c::cellfacet_test_denomination(numbers, at, room, *value);
                }
                Step::Chain(id) => c::cellfacet_test_chain(numbers, at, room, id),
                Step::Close => c::cellfacet_test_close(numbers, at, room),
                Step::Finish => c::cellfacet_test_finish(numbers, at, room),
                Step::Operation(bytes)
                | Step::State(bytes)
                | Step::Memo(bytes)
                | Step::Name(bytes)
                | Step::Symbol(bytes) => {
                    of_bytes(step)(numbers, at, room, bytes.as_ptr(), bytes.len());
                }
            }
        }
        Answer { number: numbers[6] as u32, place: numbers[7] }
    }
}

/// The function of a step that is given as bytes alone.
fn of_bytes(step: &Step) -> OfBytes {
    match step {
        Step::Operation(_) => c::cellfacet_test_operation,
        Step::State(_) => c::cellfacet_test_state,
        Step::Memo(_) => c::cellfacet_test_memo,
        Step::Name(_) => c::cellfacet_test_name,
        _ => c::cellfacet_test_symbol,
    }
}
