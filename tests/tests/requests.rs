//! The request lines and their generator.
#![allow(missing_docs)]

mod common;

use std::collections::BTreeSet;

use cellfacet_tests::element::{self, alone};
use cellfacet_tests::generate::{Kind, Requests};
use cellfacet_tests::independent::Independent;
use cellfacet_tests::lines::{answer, call, serve, unhex, Hex, Step};
use cellfacet_tests::{check, Number, Refusal};
use common::case_a;

fn asked(request: &str) -> Option<String> {
    answer(&Independent, request)
}

#[test]
fn lines_in_and_lines_out() {
    let mut output = Vec::new();
    let input = b"check - none\n\ncheck 0001 0\nfoo\ncheck - \xff\nphone-check -";
    serve(&Independent, &input[..], &mut output).expect("no failing write");
    let lines = "2 0\nbad request\n3 0 0 kept\nbad request\nbad request\n8589934592\n";
    assert_eq!(String::from_utf8(output).expect("text"), lines);
}

#[test]
fn malformed_requests() {
    let bad = [
        "",
        "check",
        "check -",
        "check 0 none",
        "check 0G none",
        "check AA none",
        "check - -1",
        "check - +1",
        "check - 1 ",
        "check  - 1",
        "check - 99999999999",
        "entry - x",
        "entry - 4294967296",
        "fill - 0",
        "merge - -",
        "write",
        "write 5 go",
        "write 5 start",
        "write 5 start:0:0:00",
        "write 5 close:",
        "write 5 close@6",
        "write 5 close@",
        "write 5 memo",
        "write 5 denomination:256",
        "write 5 operation:0",
        "upload",
        "upload -",
        "upload 5 0",
        "upload 5 AA",
        "upload 5 ",
        "upload 99999999999",
        "edition",
    ];
    for request in bad {
        assert_eq!(asked(request), None, "{request}");
    }
}

#[test]
fn answers_show_the_whole_buffer() {
    let a = Hex(&case_a()).to_string();
    assert_eq!(asked(&format!("merge {a} {a} 394")), Some(format!("0 392 {a}a5a5")));
    assert_eq!(asked(&format!("merge {a} {a} 2")), Some("14 0 a5a5".into()));
    assert_eq!(asked(&format!("merge {a} {a} 0")), Some("14 0 -".into()));
    assert_eq!(asked(&format!("phone-merge {a} {a} 393")), Some(format!("392 {a}a5")));
    assert_eq!(asked(&format!("fill {a} 9 -")), Some(format!("15 0 {a}")));
    assert_eq!(asked("fill - 0 -"), Some("17 0 -".into()));
    assert_eq!(asked("write 3"), Some("a5a5a5".into()));
    assert_eq!(asked("write 0 close"), Some("16 0 -".into()));
    assert_eq!(asked("upload 2"), Some("2 0 a5a5".into()));
    assert_eq!(asked("upload 0 - 00 -"), Some("2 0 14 0 14 0 14 0 -".into()));
    assert_eq!(asked("upload 3 00 - 01 00"), Some("2 0 2 0 3 0 3 0 3 0 00a5a5".into()));
    assert_eq!(asked(&format!("upload 393 {a}")), Some(format!("2 0 0 392 {a}a5")));
    assert_eq!(asked(&format!("check {a} 8")), Some("14 0 0 kept".into()));
}

#[test]
fn steps_are_shown_as_they_are_read() {
    let id = "ab".repeat(32);
    let steps = [
        format!("start@7:4:1:{id}"),
        format!("output:{id}:1:2:3:{}", "cd".repeat(20)),
        format!("input@0:{id}:1:{id}:2:3,4"),
        format!("input:{id}:1:{id}:2:-"),
        "close@12".into(),
        "memo:-".into(),
        "denomination:9".into(),
        format!("chain:{id}"),
        "finish".into(),
    ];
    for step in steps {
        assert_eq!(call(&step).expect("a step").to_string(), step);
    }
}

#[test]
fn the_same_seed_gives_the_same_requests() {
    let kinds = || Kind::ALL.map(|(_, kind)| kind).to_vec();
    let first: Vec<String> = Requests::new(1, kinds()).take(300).collect();
    let again: Vec<String> = Requests::new(1, kinds()).take(300).collect();
    let other: Vec<String> = Requests::new(2, kinds()).take(300).collect();
    assert_eq!(first, again);
    assert_ne!(first, other);
}

/// The first numbers of the answers to random requests of one kind.
fn numbers(kind: Kind, count: usize) -> BTreeSet<u32> {
    let answers = Requests::new(4, vec![kind]).take(count).map(|request| {
        let answer = asked(&request).expect("a request");
        answer.split(' ').next().and_then(|number| number.parse().ok()).expect("a number")
    });
    answers.collect()
}

#[test]
fn random_requests_meet_every_number() {
    assert_eq!(numbers(Kind::Check, 8000), (0..=14).collect());
    assert!(numbers(Kind::Entry, 3000).contains(&15));
    assert_eq!(numbers(Kind::Fill, 1000), [0, 15, 17, 20, 21].into());
    assert_eq!(numbers(Kind::Merge, 1000), [0, 14, 17, 18, 19, 20].into());
}

#[test]
fn random_uploads_meet_every_number() {
    let (mut pieces, mut ends) = (BTreeSet::new(), BTreeSet::new());
    for request in Requests::new(4, vec![Kind::Upload]).take(6000) {
        let answer = asked(&request).expect("a request");
        let words: Vec<&str> = answer.split(' ').collect();
        let mut met =
            words.chunks_exact(2).map(|pair| pair[0].parse::<u32>().expect("a number"));
        ends.extend(met.next_back());
        pieces.extend(met);
    }
    assert_eq!(pieces, (1..=14).collect());
    assert_eq!(ends, (0..=14).collect());
}

#[test]
fn random_writes_meet_every_number() {
    let mut met = BTreeSet::new();
    for request in Requests::new(6, vec![Kind::Write]).take(5000) {
        let answer = asked(&request).expect("a request");
        let words: Vec<&str> = answer.split(' ').collect();
        met.extend(words.chunks_exact(2).map(|pair| pair[0].to_string()));
    }
    let numbers = [0, 2, 4, 5, 6, 7, 8, 9, 10, 11, 13, 14, 16];
    assert_eq!(met, numbers.map(|number: u32| number.to_string()).into());
}

/// How often a threshold is refused because it is 0, and because it is too large.
#[derive(Default)]
struct ThresholdFaults {
    zero: usize,
    above: usize,
}

impl ThresholdFaults {
    fn add(&mut self, threshold: u32) {
        *(if threshold == 0 { &mut self.zero } else { &mut self.above }) += 1;
    }

    /// Adds the bytes' refusal where it is that of a threshold.
    fn add_refusal(&mut self, bytes: &[u8], refusal: Option<Refusal>) {
        let refusal = refusal.filter(|refusal| refusal.number == Number::Threshold);
        let field = refusal.and_then(|refusal| bytes[refusal.place..].first_chunk());
        if let Some(&threshold) = field {
            self.add(u32::from_be_bytes(threshold));
        }
    }

    fn assert_at_least(&self, least: usize, name: &str) {
        let ThresholdFaults { zero, above } = *self;
        assert!(zero.min(above) >= least, "{name}: {zero} zero, {above} above");
    }
}

/// The transactions in a request: the bytes, both drafts, or the pieces joined.
fn transactions(request: &str) -> Vec<Vec<u8>> {
    let words: Vec<&str> = request.split(' ').collect();
    let digits = match words[0] {
        "upload" => vec![words[2..].concat().replace('-', "")],
        "merge" | "phone-merge" => words[1..3].iter().map(|word| word.to_string()).collect(),
        _ => vec![words[1].to_string()],
    };
    let bytes = digits.iter().map(|digits| match digits.as_str() {
        "" => Vec::new(),
        digits => unhex(digits).expect("hex"),
    });
    bytes.collect()
}

#[test]
fn both_faults_of_a_threshold_are_frequent() {
    for (name, kind) in Kind::ALL.into_iter().filter(|&(_, kind)| kind != Kind::Write) {
        let mut faults = ThresholdFaults::default();
        for request in Requests::new(5, vec![kind]).take(4000) {
            for bytes in transactions(&request) {
                faults.add_refusal(&bytes, check(&bytes).err());
            }
        }
        faults.assert_at_least(40, name);
    }
}

#[test]
fn both_faults_of_a_threshold_are_frequent_in_each_step_with_owners() {
    let mut outputs = ThresholdFaults::default();
    let (mut operations, mut states) = (ThresholdFaults::default(), ThresholdFaults::default());
    for request in Requests::new(5, vec![Kind::Write]).take(4000) {
        let answer = asked(&request).expect("a request");
        let words: Vec<&str> = answer.split(' ').collect();
        let answered = request.split(' ').skip(2).zip(words.chunks_exact(2));
        for (step, _) in answered.filter(|(_, answer)| answer[0] == "7") {
            let alone = |kind, bytes: &[u8]| alone(kind, bytes).err();
            match call(step).expect("a step").step {
                Step::Output { threshold, .. } => outputs.add(threshold),
                Step::Operation(bytes) => operations
                    .add_refusal(&bytes, alone(element::Kind::TransferableOperation, &bytes)),
                Step::State(bytes) => {
                    states.add_refusal(&bytes, alone(element::Kind::InitialState, &bytes));
                }
                other => panic!("{other} has no threshold"),
            }
        }
    }
    outputs.assert_at_least(80, "outputs");
    operations.assert_at_least(10, "operations");
    states.assert_at_least(5, "states");
}
