//! What is timed: each call by the proved code, by the independent program, and a plain copy of
//! as many bytes; of an upload, one check of the whole in the copy's stead.

use std::hint::black_box;

use cellfacet_proved::{library, steps, Proved};
use cellfacet_tests::element::SIGNATURE;
use cellfacet_tests::generate::drafts::places;
use cellfacet_tests::independent::{make_step, Independent};
use cellfacet_tests::lines::{Answer, Answers};
use cellfacet_tests::phone;
use cellfacet_tests::script::script;

use crate::sample::Sample;
use crate::time::Run;

/// A line of the table.
pub struct Work<'a> {
    /// The call's name.
    pub call: String,
    /// What it is made of.
    pub sample: &'a Sample,
    /// Proved, independent, and what else it is compared with.
    pub runs: [Run<'a>; 3],
}

/// Copies the bytes.
fn copy(bytes: &[u8]) -> Run<'_> {
    let mut buffer = vec![0; bytes.len()];
    Box::new(move || black_box(&mut buffer).copy_from_slice(black_box(bytes)))
}

/// Checks the transaction, which is accepted, so that the whole of it is read.
fn check(check: fn(&[u8]) -> u64, sample: &Sample) -> Run<'_> {
    let bytes = &sample.bytes[..];
    assert_eq!(check(bytes), bytes.len() as u64, "not accepted: {sample}");
    Box::new(move || {
        black_box(check(black_box(bytes)));
    })
}

/// Checks the transaction.
pub fn checked(sample: &Sample) -> Work<'_> {
    let runs =
        [check(library::check, sample), check(phone::check, sample), copy(&sample.bytes)];
    Work { call: "check".into(), sample, runs }
}

/// Writes the transaction step by step, from the start to the blank credentials. Both give the
/// same bytes, which are accepted.
pub fn written(sample: &Sample) -> Work<'_> {
    let steps = script(&sample.bytes).expect("an accepted transaction");
    let length = sample.bytes.len();
    let again = steps.clone();
    let proved = move |buffer: &mut [u8]| {
        let mut writer = steps::Writer::default();
        for step in &steps {
            black_box(writer.step(black_box(buffer), step));
        }
    };
    let independent = move |buffer: &mut [u8]| {
        let mut writer = cellfacet_tests::Writer::new();
        for step in &again {
            let _ = black_box(make_step(&mut writer, black_box(buffer), step));
        }
    };
    let (mut first, mut second) = (vec![1; length], vec![2; length]);
    proved(&mut first);
    independent(&mut second);
    assert!(first == second, "written differently: {sample}");
    assert_eq!(phone::check(&first), length as u64, "not accepted: {sample}");
    let runs: [Run; 3] = [
        Box::new(move || proved(&mut first)),
        Box::new(move || independent(&mut second)),
        copy(&sample.bytes),
    ];
    Work { call: "write".into(), sample, runs }
}

/// A draft whose last slot is empty, and that slot's number and place; none without slots.
fn open_last(bytes: &[u8]) -> Option<(Vec<u8>, u64, usize)> {
    let places = places(bytes);
    let place = *places.last()?;
    let mut draft = bytes.to_vec();
    draft[place..place + SIGNATURE].fill(0);
    Some((draft, places.len() as u64 - 1, place))
}

/// Fills the last slot, which is emptied before each call; none without slots.
pub fn filled(sample: &Sample) -> Option<Work<'_>> {
    let (draft, slot, place) = open_last(&sample.bytes)?;
    let signature = &sample.bytes[place..place + SIGNATURE];
    let runs = [
        fill(Proved, draft.clone(), slot, place, sample, signature),
        fill(Independent, draft, slot, place, sample, signature),
        copy(&sample.bytes),
    ];
    Some(Work { call: "fill".into(), sample, runs })
}

fn fill<'a>(
    answers: impl Answers + 'a,
    mut draft: Vec<u8>,
    slot: u64,
    place: usize,
    sample: &Sample,
    signature: &'a [u8],
) -> Run<'a> {
    let _ = answers.fill(&mut draft, slot, signature);
    assert!(draft == sample.bytes, "filled differently: {sample}");
    Box::new(move || {
        draft[place..place + SIGNATURE].fill(0);
        black_box(answers.fill(black_box(&mut draft), slot, black_box(signature)));
    })
}

/// Merges two drafts, of which one has the even slots and one the odd.
pub fn merged(sample: &Sample) -> Work<'_> {
    let drafts = || [1, 0].map(|first| every_other_emptied(&sample.bytes, first));
    let runs = [
        merge(Proved, drafts(), sample),
        merge(Independent, drafts(), sample),
        copy(&sample.bytes),
    ];
    Work { call: "merge".into(), sample, runs }
}

fn every_other_emptied(bytes: &[u8], first: usize) -> Vec<u8> {
    let mut draft = bytes.to_vec();
    for place in places(bytes).into_iter().skip(first).step_by(2) {
        draft[place..place + SIGNATURE].fill(0);
    }
    draft
}

fn merge<'a>(answers: impl Answers + 'a, drafts: [Vec<u8>; 2], sample: &Sample) -> Run<'a> {
    let mut output = vec![0; sample.bytes.len()];
    let [first, second] = drafts;
    let _ = answers.merge(&first, &second, &mut output);
    assert!(output == sample.bytes, "merged differently: {sample}");
    Box::new(move || {
        let output = black_box(&mut output);
        black_box(answers.merge(black_box(&first), black_box(&second), output));
    })
}

/// Uploads the transaction in `count` pieces, and ends; against one check of the whole.
pub fn uploaded(sample: &Sample, count: usize) -> Work<'_> {
    let runs = [
        upload(Proved, count, sample),
        upload(Independent, count, sample),
        check(library::check, sample),
    ];
    Work { call: format!("upload, pieces: {count}"), sample, runs }
}

/// The answer to a piece that is not refused.
const NEED_MORE: Answer = Answer { number: 2, place: 0 };

fn upload<'a>(answers: impl Answers + 'a, count: usize, sample: &'a Sample) -> Run<'a> {
    let bytes = &sample.bytes[..];
    let pieces: Vec<&[u8]> = bytes.chunks(bytes.len().div_ceil(count)).collect();
    assert_eq!(pieces.len(), count, "cut differently: {sample}");
    let mut store = vec![0; bytes.len()];
    let end = hand_over(&answers, &pieces, &mut store);
    let accepted = Answer { number: 0, place: bytes.len() as u64 };
    assert!(end == Some(accepted) && store == bytes, "uploaded differently: {sample}");
    Box::new(move || {
        black_box(hand_over(&answers, black_box(&pieces), black_box(&mut store)));
    })
}

/// The end's answer after all pieces, or that of the first piece that is refused.
fn hand_over<A: Answers>(answers: &A, pieces: &[&[u8]], store: &mut [u8]) -> Option<Answer> {
    let mut upload = A::Upload::default();
    for piece in pieces {
        let answer = answers.piece(&mut upload, store, piece)?;
        if answer != NEED_MORE {
            return Some(answer);
        }
    }
    answers.end(&upload, store)
}
