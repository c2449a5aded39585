//! The proved code of Cellfacet, called through its static libraries: behind the case
//! lines, and compared there with the independent program.

pub mod compare;
pub mod entry;
pub mod library;
pub mod steps;

use cellfacet_tests::lines::{Answer, Answers, EntryFields, Step};

/// The lower of the numbers that the check with a table packs have 20 bits.
const LOW: u64 = (1 << 20) - 1;

/// Answers with the proved code.
pub struct Proved;

impl Answers for Proved {
    type Writer = steps::Writer;
    type Upload = library::UploadState;

    fn check(&self, bytes: &[u8]) -> Option<Answer> {
        Some(unpacked(library::check(bytes)))
    }

    fn rows(&self, bytes: &[u8], table: &mut [u32]) -> Option<(Answer, usize)> {
        let packed = library::table(bytes, table);
        let answer = Answer { number: (packed >> 40) as u32, place: packed & LOW };
        Some((answer, (packed >> 20 & LOW) as usize))
    }

    fn entry(&self, bytes: &[u8], n: u32) -> Option<(Answer, Option<EntryFields>)> {
        Some(entry::read(bytes, n))
    }

    fn fill(&self, draft: &mut [u8], slot: u64, signature: &[u8]) -> Option<Answer> {
        let [number, place] = library::fill(draft, slot, signature);
        Some(Answer { number: number as u32, place })
    }

    fn merge(&self, first: &[u8], second: &[u8], output: &mut [u8]) -> Option<Answer> {
        Some(unpacked(library::merge(first, second, output)))
    }

    fn phone_check(&self, bytes: &[u8]) -> Option<u64> {
        Some(library::check(bytes))
    }

    fn phone_merge(&self, first: &[u8], second: &[u8], output: &mut [u8]) -> Option<u64> {
        Some(library::merge(first, second, output))
    }

    fn step(
        &self,
        writer: &mut steps::Writer,
        buffer: &mut [u8],
        step: &Step,
    ) -> Option<Answer> {
        Some(writer.step(buffer, step))
    }

    fn piece(
        &self,
        upload: &mut library::UploadState,
        store: &mut [u8],
        piece: &[u8],
    ) -> Option<Answer> {
        Some(unpacked(library::upload_piece(upload, store, piece)))
    }

    fn end(&self, upload: &library::UploadState, store: &[u8]) -> Option<Answer> {
        Some(unpacked(library::upload_end(upload, store)))
    }
}

fn unpacked(answer: u64) -> Answer {
    Answer { number: (answer >> 32) as u32, place: answer & u64::from(u32::MAX) }
}
