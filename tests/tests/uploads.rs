//! Uploads in pieces, the request's sentences one by one.
#![allow(missing_docs)]

mod common;

use std::collections::BTreeSet;

use cellfacet_tests::generate::damage::damaged;
use cellfacet_tests::generate::uploads::{cut, near_limit};
use cellfacet_tests::generate::valid::{of_length, transaction};
use cellfacet_tests::generate::Random;
use cellfacet_tests::independent::Independent;
use cellfacet_tests::lines::Answers;
use cellfacet_tests::transaction::LIMIT;
use cellfacet_tests::Upload;
use common::{case_a, checked, with};

/// An upload and its store, which holds a5 everywhere before the first piece.
struct Run {
    upload: Upload,
    store: Vec<u8>,
}

impl Run {
    fn new(room: usize) -> Self {
        Run { upload: Upload::new(), store: vec![0xa5; room] }
    }

    fn piece(&mut self, piece: &[u8]) -> String {
        let answer = Independent.piece(&mut self.upload, &mut self.store, piece);
        answer.expect("an answer").to_string()
    }

    fn end(&self) -> String {
        Independent.end(&self.upload, &self.store).expect("an answer").to_string()
    }

    /// Hands over all pieces; answers with the end's answer.
    fn all(&mut self, pieces: &[&[u8]]) -> String {
        for piece in pieces {
            self.piece(piece);
        }
        self.end()
    }
}

/// The front, and behind it what the store held before.
fn store_of(front: &[u8], room: usize) -> Vec<u8> {
    let mut store = vec![0xa5; room];
    store[..front.len()].copy_from_slice(front);
    store
}

/// What a piece is answered after which these bytes are joined.
fn shown(joined: &[u8]) -> String {
    let answer = checked(joined);
    if answer.starts_with("0 ") || answer.starts_with("2 ") {
        "2 0".into()
    } else {
        answer
    }
}

/// The bytes of P1 to P12.
fn proved_cases() -> Vec<Vec<u8>> {
    let a = case_a();
    vec![
        a.clone(),
        with(&a, 234, &[0, 0, 0, 7, 0, 0, 0, 3]),
        Vec::new(),
        vec![0, 1],
        [&a[..], &[0]].concat(),
        with(&a, 82, &[0; 8]),
        with(&a, 98, &[0, 0, 0, 3]),
        with(&a, 98, &[0; 4]),
        with(&a, 126, &a[106..126]),
        with(&a, 258, &[0, 0, 0, 1]),
        a[..391].to_vec(),
        with(&a, 242, &[0, 0, 1, 1]),
    ]
}

#[test]
fn a_piece_is_copied_behind_what_is_there() {
    let a = case_a();
    for place in 0..=a.len() {
        let (first, second) = a.split_at(place);
        let mut run = Run::new(400);
        assert_eq!(run.piece(first), "2 0", "cut at {place}");
        assert_eq!(run.store, store_of(first, 400), "cut at {place}");
        assert_eq!(run.piece(second), "2 0", "cut at {place}");
        assert_eq!(run.store, store_of(&a, 400), "cut at {place}");
        assert_eq!(run.end(), "0 392", "cut at {place}");
    }
}

#[test]
fn single_bytes_and_pieces_of_length_0() {
    let a = case_a();
    let mut run = Run::new(392);
    assert_eq!(run.piece(&[]), "2 0");
    for (place, byte) in a.iter().enumerate() {
        assert_eq!(run.piece(std::slice::from_ref(byte)), "2 0", "byte {place}");
        assert_eq!(run.piece(&[]), "2 0", "behind byte {place}");
        assert_eq!(run.end(), checked(&a[..=place]), "behind byte {place}");
    }
    assert_eq!(run.store, a);
    assert_eq!(run.end(), "0 392");
}

#[test]
fn the_proved_cases_cut_at_every_place_and_into_single_bytes() {
    for bytes in proved_cases() {
        let room = bytes.len() + 3;
        for place in 0..=bytes.len() {
            let (first, second) = bytes.split_at(place);
            assert_eq!(Run::new(room).all(&[first, second]), checked(&bytes), "cut at {place}");
        }
        let single: Vec<&[u8]> = bytes.chunks(1).collect();
        assert_eq!(Run::new(room).all(&single), checked(&bytes));
    }
}

#[test]
fn no_room_is_judged_first() {
    let a = case_a();
    // One byte too few, and the check would say 3, 13 or 1.
    assert_eq!(Run::new(391).piece(&a), "14 0");
    assert_eq!(Run::new(0).piece(&[1]), "14 0");
    assert_eq!(Run::new(1).piece(&[1, 1]), "14 0");
    assert_eq!(Run::new(392).piece(&[&a[..], &[0]].concat()), "14 0");
    assert_eq!(Run::new(LIMIT).piece(&vec![1; LIMIT + 1]), "14 0");
    assert_eq!(Run::new(LIMIT + 1).piece(&vec![1; LIMIT + 1]), "1 0");
    // Together they do not fit, though the second would alone.
    let mut run = Run::new(392);
    assert_eq!(run.piece(&a), "2 0");
    assert_eq!(run.piece(&[0]), "14 0");
    assert_eq!(run.store, a);
    // A piece of no bytes fits a store of none, and a full one.
    assert_eq!(Run::new(0).piece(&[]), "2 0");
    let mut full = Run::new(392);
    assert_eq!((full.piece(&a), full.piece(&[])), ("2 0".into(), "2 0".into()));
}

#[test]
fn a_standing_refusal_comes_before_no_room() {
    let mut run = Run::new(2);
    assert_eq!(run.piece(&[1, 1]), "3 0");
    assert_eq!(run.piece(&[0; 3]), "3 0");
}

#[test]
fn done_and_cut_short_are_shown_as_need_more_at_0() {
    let a = case_a();
    let mut run = Run::new(392);
    // Of these bytes the check says 2 at 327, and then 0 at 392.
    assert_eq!((run.piece(&a[..391]), run.end()), ("2 0".into(), "2 327".into()));
    assert_eq!((run.piece(&a[391..]), run.end()), ("2 0".into(), "0 392".into()));
}

#[test]
fn a_piece_is_answered_as_the_bytes_joined_so_far() {
    let mut random = Random::new(3);
    let mut met = BTreeSet::new();
    for _ in 0..3_000 {
        let accepted = transaction(&mut random);
        let bytes = damaged(&mut random, accepted);
        let mut run = Run::new(bytes.len());
        let mut joined = 0;
        for piece in cut(&mut random, &bytes) {
            joined += piece.len();
            let answer = run.piece(piece);
            assert_eq!(answer, shown(&bytes[..joined]));
            met.extend(answer.split(' ').next().map(String::from));
            if answer != "2 0" {
                break;
            }
            assert_eq!(run.end(), checked(&bytes[..joined]));
        }
    }
    let numbers = 1..=13;
    assert_eq!(met, numbers.map(|number| number.to_string()).collect());
}

#[test]
fn an_end_changes_nothing() {
    let a = case_a();
    let mut run = Run::new(393);
    run.piece(&a[..100]);
    let before = (run.upload, run.store.clone());
    assert_eq!((run.end(), run.end()), ("2 98".into(), "2 98".into()));
    assert_eq!((run.upload, &run.store), (before.0, &before.1));
    // Its 2 does not stand: the next piece goes on.
    assert_eq!(run.piece(&a[100..]), "2 0");
    assert_eq!((run.end(), run.end()), ("0 392".into(), "0 392".into()));
    // Nor does its 0: a byte more is refused. Without a piece, the check is of no bytes.
    assert_eq!((run.piece(&[]), run.piece(&[0])), ("2 0".into(), "13 392".into()));
    assert_eq!(Run::new(1).end(), "2 0");
}

#[test]
fn a_refused_piece_is_not_stored_and_its_refusal_stands() {
    let a = case_a();
    let cases: [(usize, &[&[u8]], &str); 4] = [
        (400, &[&[0], &[1]], "3 0"),
        (400, &[&a, &[0]], "13 392"),
        (400, &[&a, &[0; 9]], "14 0"),
        (400, &[&a[..100], &with(&a, 126, &a[106..126])[100..]], "6 126"),
    ];
    for (room, pieces, refusal) in cases {
        let mut run = Run::new(room);
        let [first, second] = pieces else { panic!("two pieces") };
        assert_eq!(run.piece(first), "2 0");
        assert_eq!(run.piece(second), refusal);
        let before = (run.upload, run.store.clone());
        assert_eq!(before.1, store_of(first, room));
        // The rest of case A, nothing, what breaks another rule, and what does not fit.
        for later in [&a[first.len()..], &[], &[1, 1], &[0; 401]] {
            assert_eq!(run.piece(later), refusal);
            assert_eq!(run.end(), refusal);
        }
        assert_eq!((run.upload, &run.store), (before.0, &before.1));
        // A fresh start changes no byte of the store, and no refusal stands.
        run.upload = Upload::new();
        assert_eq!(run.end(), "2 0");
        assert_eq!(run.all(&[&a[..7], &a[7..]]), "0 392");
        assert_eq!(run.store, store_of(&a, room));
    }
}

#[test]
fn the_end_is_the_same_however_the_bytes_were_cut() {
    let mut random = Random::new(5);
    let (mut accepted, mut refused) = (0, 0);
    for turn in 0..600 {
        let valid = transaction(&mut random);
        let bytes = if turn % 2 == 0 { valid } else { damaged(&mut random, valid) };
        if bytes.len() > LIMIT {
            continue;
        }
        let room = bytes.len() + random.below(3);
        for _ in 0..4 {
            let mut run = Run::new(room);
            let pieces = cut(&mut random, &bytes);
            let stored = pieces.iter().take_while(|piece| run.piece(piece) == "2 0");
            let stored: usize = stored.map(|piece| piece.len()).sum();
            assert_eq!(run.end(), checked(&bytes));
            assert_eq!(run.store, store_of(&bytes[..stored], room));
            // What the whole is refused for, some piece is refused for.
            if shown(&bytes) == "2 0" {
                assert_eq!(stored, bytes.len());
                accepted += 1;
            } else {
                refused += 1;
            }
        }
    }
    assert!(accepted > 1_000 && refused > 500, "{accepted} need more, {refused} refused");
}

#[test]
fn as_many_bytes_as_a_draft_may_have() {
    let mut random = Random::new(7);
    let bytes = of_length(&mut random, LIMIT);
    for size in [LIMIT, LIMIT - 1, 40_000, 4_096] {
        let pieces: Vec<&[u8]> = bytes.chunks(size).collect();
        let mut run = Run::new(LIMIT + 1);
        assert_eq!(run.all(&pieces), "0 65536", "pieces of {size}");
        assert_eq!(run.store, store_of(&bytes, LIMIT + 1));
        assert_eq!(run.piece(&[0]), "1 0", "pieces of {size}");
        assert_eq!(run.store, store_of(&bytes, LIMIT + 1));
    }
}

#[test]
fn longer_bytes_are_always_refused() {
    let mut random = Random::new(9);
    let mut met = BTreeSet::new();
    for _ in 0..400 {
        let bytes = near_limit(&mut random);
        if bytes.len() <= LIMIT {
            continue;
        }
        let room = random.pick(&[0, 1, bytes.len() - 1, bytes.len(), bytes.len() + 9]);
        let mut run = Run::new(room);
        let end = run.all(&cut(&mut random, &bytes));
        let number: u32 = end.split(' ').next().and_then(|n| n.parse().ok()).expect("a number");
        assert!(!matches!(number, 0 | 2), "{end} for {} bytes", bytes.len());
        met.insert(number);
    }
    assert!(met.is_superset(&[1, 6, 13, 14].into()), "{met:?}");
}

#[test]
fn how_longer_bytes_are_refused_depends_on_the_cut() {
    let mut bytes = case_a();
    bytes.resize(LIMIT + 1, 0);
    let end = |room, place| Run::new(room).all(&[&bytes[..place], &bytes[place..]]);
    assert_eq!(end(LIMIT + 1, 0), "1 0");
    assert_eq!(end(LIMIT + 1, 392), "1 0");
    assert_eq!(end(LIMIT + 1, 393), "13 392");
    assert_eq!(end(LIMIT + 1, LIMIT), "13 392");
    assert_eq!(end(LIMIT, 392), "14 0");
    assert_eq!(end(LIMIT, 393), "13 392");
}

#[test]
fn over_another_store_a_call_ends_with_a_number_of_the_table() {
    let a = case_a();
    let mut run = Run::new(400);
    run.piece(&a[..391]);
    // A shorter store.
    for room in [0, 1, 390] {
        let mut other = Run { upload: run.upload, store: vec![0; room] };
        assert_eq!(other.end(), "14 0");
        assert_eq!((other.piece(&[]), other.end()), ("14 0".into(), "14 0".into()));
        assert_eq!(other.store, vec![0; room]);
    }
    // One of other bytes.
    let mut other = Run { upload: run.upload, store: vec![0xff; 400] };
    assert_eq!(other.end(), "3 0");
    assert_eq!((other.piece(&a[391..]), other.store), ("3 0".into(), vec![0xff; 400]));
}
