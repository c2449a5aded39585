//! The proved writer and the independent one answer alike, step by step and byte by byte.
#![allow(missing_docs)]

use std::collections::{BTreeMap, BTreeSet};

use cellfacet_proved::compare::both;
use cellfacet_proved::steps::Writer;
use cellfacet_proved::Proved;
use cellfacet_tests::check;
use cellfacet_tests::draft::slots;
use cellfacet_tests::generate::valid::{many_entries, of_length, transaction};
use cellfacet_tests::generate::{Kind, Random, Requests};
use cellfacet_tests::independent::{make_step, Independent};
use cellfacet_tests::lines::{call, unhex, Answer, Answers, Call, Step};
use cellfacet_tests::script::script;

const SEED: u64 = 20_251_117;
const SCRIPTS: usize = 100_000;
const TRIPS: usize = 6_000;

/// The numbers that each step can answer, 0 where it is done.
const NUMBERS: [(&str, &[u32]); 12] = [
    ("start", &[0, 4, 14, 16]),
    ("output", &[0, 2, 5, 6, 7, 14, 16]),
    ("input", &[0, 5, 6, 14, 16]),
    ("operation", &[0, 2, 4, 6, 7, 8, 13, 14, 16]),
    ("state", &[0, 2, 4, 5, 6, 7, 8, 13, 14, 16]),
    ("close", &[0, 11, 14, 16]),
    ("memo", &[0, 8, 14, 16]),
    ("name", &[0, 8, 9, 14, 16]),
    ("symbol", &[0, 8, 9, 14, 16]),
    ("denomination", &[0, 10, 14, 16]),
    ("chain", &[0, 14, 16]),
    ("finish", &[0, 14, 16]),
];

fn name(step: &str) -> &str {
    step.split([':', '@']).next().unwrap_or(step)
}

/// What was met, over all scripts.
#[derive(Default)]
struct Met {
    /// How many steps.
    steps: usize,
    /// A step's name, and the numbers that it was answered.
    answers: BTreeMap<String, BTreeSet<u32>>,
    /// The types of the finished transactions, and how many there were.
    types: BTreeSet<u8>,
    finished: usize,
    /// How many steps were lent only a part of the buffer.
    partly: usize,
}

impl Met {
    /// Notes each step, and checks what is finished by both programs.
    fn note(&mut self, request: &str, answer: &str) {
        let words: Vec<&str> = answer.split(' ').collect();
        let (buffer, answers) = words.split_last().expect("a buffer");
        for (step, answer) in request.split(' ').skip(2).zip(answers.chunks_exact(2)) {
            let number: u32 = answer[0].parse().expect("a number");
            self.steps += 1;
            self.answers.entry(name(step).to_string()).or_default().insert(number);
            self.partly += usize::from(step.contains('@'));
            if number == 0 && name(step) == "finish" {
                let end: usize = answer[1].parse().expect("a place");
                let bytes = unhex(buffer).expect("hex");
                self.finish(&bytes[..end], request);
            }
        }
    }

    fn finish(&mut self, bytes: &[u8], request: &str) {
        let accepted = Some(Answer { number: 0, place: bytes.len() as u64 });
        assert_eq!(Proved.check(bytes), accepted, "request: {request}");
        assert_eq!(Independent.check(bytes), accepted, "request: {request}");
        self.types.insert(bytes[5]);
        self.finished += 1;
    }
}

#[test]
fn random_scripts() {
    println!("seed {SEED}, {SCRIPTS} scripts");
    let mut met = Met::default();
    for request in Requests::new(SEED, vec![Kind::Write]).take(SCRIPTS) {
        let answer = both(&request).unwrap_or_else(|difference| panic!("\n{difference}"));
        met.note(&request, &answer);
    }
    let Met { steps, answers, types, finished, partly } = met;
    println!("{steps} steps, {finished} finished, {partly} lent a part");
    assert_eq!(types, (0..=4).collect());
    assert!(steps >= 1_000_000 && finished >= 30_000 && partly >= 20_000);
    // Each step answers at times with every number that it can answer, and never with another.
    let numbers =
        NUMBERS.map(|(step, numbers)| (step.into(), numbers.iter().copied().collect()));
    assert_eq!(answers, numbers.into());
}

/// The calls of a request, and the length of its buffer.
fn calls(request: &str) -> (usize, Vec<Call>) {
    let mut words = request.split(' ').skip(1);
    let length = words.next().and_then(|length| length.parse().ok()).expect("a length");
    (length, words.map(|step| call(step).expect("a step")).collect())
}

#[test]
fn a_fresh_writer_has_written_nothing() {
    assert_eq!(Writer::default(), Writer::of([0; 6]));
}

#[test]
fn a_refused_step_changes_nothing() {
    let mut refused = 0;
    for request in Requests::new(SEED + 1, vec![Kind::Write]).take(5_000) {
        let (length, calls) = calls(&request);
        let mut buffer = vec![0xa5; length];
        let mut writer = Writer::default();
        for Call { step, lent } in calls {
            let before = (writer.clone(), buffer.clone());
            let answer = writer.step(&mut buffer[..lent.unwrap_or(length)], &step);
            if answer.number != 0 {
                assert_eq!(answer.place, 0, "{step} of {request}");
                assert_eq!(writer.state(), before.0.state(), "{step} of {request}");
                assert!(buffer == before.1, "{step} of {request}");
                refused += 1;
            }
        }
    }
    assert!(refused > 5_000, "{refused} refused");
}

/// Makes each step by both programs, over a buffer with room to spare.
fn written(steps: &[Step], length: usize, fill: u8) -> Vec<u8> {
    let (mut buffer, mut other) = (vec![fill; length], vec![fill; length]);
    let (mut writer, mut another) = (Writer::default(), cellfacet_tests::Writer::new());
    for step in steps {
        let answer = writer.step(&mut buffer, step);
        assert_eq!(answer.number, 0, "{step}");
        assert_eq!(answer, make_step(&mut another, &mut other, step).into(), "{step}");
        assert!(buffer == other, "{step}");
    }
    buffer
}

/// The steps that spell the reading, and then the signatures, give the bytes.
fn trip(random: &mut Random, bytes: &[u8]) {
    let read = check(bytes).expect("an accepted transaction");
    let steps = script(bytes).expect("its steps");
    let (spare, filling) = (random.below(3), random.byte());
    let mut buffer = written(&steps, bytes.len() + spare, filling);
    assert_eq!(buffer.split_off(bytes.len()), vec![filling; spare]);
    for (slot, place) in slots(bytes, &read).enumerate() {
        assert_eq!(buffer[place..place + 65], [0; 65]);
        let answer = Proved.fill(&mut buffer, slot as u64, &bytes[place..place + 65]);
        assert_eq!(answer, Some(Answer { number: 0, place: bytes.len() as u64 }));
    }
    assert!(buffer == bytes);
}

#[test]
fn writing_a_reading_and_filling_its_signatures_gives_the_same_bytes() {
    println!("seed {SEED}, {TRIPS} transactions");
    let mut random = Random::new(SEED);
    let mut types = BTreeSet::new();
    for _ in 0..TRIPS {
        let bytes = transaction(&mut random);
        trip(&mut random, &bytes);
        types.insert(bytes[5]);
    }
    assert_eq!(types, (0..=4).collect());
    for length in 65_530..=65_536 {
        let bytes = of_length(&mut random, length);
        trip(&mut random, &bytes);
    }
    let bytes = many_entries(&mut random);
    trip(&mut random, &bytes);
}

/// A state that most often no run of steps leaves.
fn forged(random: &mut Random) -> Writer {
    let place = |random: &mut Random| match random.below(8) {
        0 => random.number64(),
        _ => random.below(220) as u64,
    };
    let [at, list, last] = [(); 3].map(|()| place(random));
    let (kind, phase) = (random.below(6) as u64, random.below(9) as u64);
    let count = random.number32().into();
    Writer::of([kind, phase, at, list, count, last])
}

#[test]
fn a_step_on_a_forged_state_ends_and_refuses_without_a_change() {
    let mut random = Random::new(SEED);
    let (mut done, mut refused) = (0, 0);
    for request in Requests::new(SEED, vec![Kind::Write]).take(20_000) {
        for Call { step, .. } in calls(&request).1 {
            let mut writer = forged(&mut random);
            let length = random.below(400);
            let mut buffer = random.bytes(length);
            let before = (writer.clone(), buffer.clone());
            if writer.step(&mut buffer, &step).number == 0 {
                done += 1;
            } else {
                assert_eq!(writer.state(), before.0.state(), "{step}");
                assert!(buffer == before.1, "{step}");
                refused += 1;
            }
        }
    }
    println!("{done} done, {refused} refused");
    assert!(done >= 1_000 && refused >= 50_000, "{done} done, {refused} refused");
}
