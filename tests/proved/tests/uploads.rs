//! Uploads by the proved code and by the independent program answer alike; and however bytes are
//! cut, the proved upload ends as the proved check of the whole does.
#![allow(missing_docs)]

use std::collections::BTreeSet;
use std::fs;
use std::path::Path;

use cellfacet_proved::compare::both;
use cellfacet_proved::library::{check, upload_end, upload_piece, UploadState};
use cellfacet_tests::generate::damage::damaged;
use cellfacet_tests::generate::uploads::{cut, near_limit, Cutting};
use cellfacet_tests::generate::valid::{of_length, transaction};
use cellfacet_tests::generate::{Kind, Random, Requests};
use cellfacet_tests::lines::Hex;
use cellfacet_tests::transaction::LIMIT;

const SEED: u64 = 20_251_119;
const CUTTINGS: usize = 50_000;
const FORGED: usize = 50_000;

const NEED_MORE: u64 = 2 << 32;
const NO_ROOM: u64 = 14 << 32;

fn number(answer: u64) -> u64 {
    answer >> 32
}

fn case_a() -> Vec<u8> {
    let path = Path::new(env!("CARGO_MANIFEST_DIR")).join("../data/case-a.tx");
    fs::read(path).expect("case A")
}

fn alike(request: &str) -> String {
    both(request).unwrap_or_else(|difference| panic!("\n{difference}"))
}

/// The request that uploads these pieces.
fn request(store: usize, pieces: &[&[u8]]) -> String {
    let pieces = pieces.iter().map(|piece| piece.to_vec()).collect();
    Cutting { store, pieces }.to_string()
}

/// Case A as it is, with a byte more, and refused in its first field, midway and late.
fn cases() -> Vec<Vec<u8>> {
    let changed = [(0, 1), (101, 3), (245, 9), (261, 1)];
    let with = |(place, byte): (usize, u8)| {
        let mut bytes = case_a();
        bytes[place] = byte;
        bytes
    };
    let longer = [case_a(), vec![0]].concat();
    [case_a(), longer].into_iter().chain(changed.map(with)).collect()
}

#[test]
fn case_a_cut_at_every_place() {
    for bytes in cases() {
        for place in 0..=bytes.len() {
            let (first, second) = bytes.split_at(place);
            for room in [0, place, bytes.len() - 1, bytes.len(), bytes.len() + 8] {
                alike(&request(room, &[first, second]));
                alike(&request(room, &[&[], first, &[], second, &[]]));
            }
        }
    }
    let a = case_a();
    let cut = request(393, &[&a[..100], &[], &a[100..]]);
    assert_eq!(alike(&cut), format!("2 0 2 0 2 0 0 392 {}a5", Hex(&a)));
}

#[test]
fn case_a_in_single_bytes() {
    for bytes in cases() {
        let single: Vec<&[u8]> = bytes.chunks(1).collect();
        let spaced: Vec<&[u8]> = bytes.chunks(1).flat_map(|byte| [byte, &[]]).collect();
        for room in [0, 1, 100, 391, 392, 393, 400] {
            alike(&request(room, &single));
            alike(&request(room, &spaced));
        }
    }
}

/// What was met, over all uploads.
#[derive(Debug, Default)]
struct Met {
    pieces: BTreeSet<u32>,
    ends: BTreeSet<u32>,
    /// How many had a store too small, just large enough, or larger.
    stores: [usize; 3],
    /// How many were longer than any transaction.
    overlong: usize,
    /// How many had pieces behind a refused one.
    after_refusal: usize,
}

impl Met {
    fn note(&mut self, request: &str, answer: &str) {
        let mut words = request.split(' ').skip(1);
        let room: usize = words.next().and_then(|room| room.parse().ok()).expect("a room");
        let length: usize = words.filter(|piece| *piece != "-").map(|hex| hex.len() / 2).sum();
        self.stores[1 + usize::from(room > length) - usize::from(room < length)] += 1;
        let answers: Vec<&str> = answer.split(' ').collect();
        let numbers = answers.chunks_exact(2).map(|pair| pair[0].parse().expect("a number"));
        let numbers: Vec<u32> = numbers.collect();
        let (end, pieces) = numbers.split_last().expect("an end");
        if length > LIMIT {
            assert!(!matches!(end, 0 | 2), "{end} for {length} bytes");
            self.overlong += 1;
        }
        self.after_refusal += usize::from(pieces.iter().filter(|n| **n != 2).count() > 1);
        self.pieces.extend(pieces);
        self.ends.insert(*end);
    }
}

#[test]
fn random_cuttings() {
    println!("seed {SEED}, {CUTTINGS} uploads");
    let mut met = Met::default();
    for request in Requests::new(SEED, vec![Kind::Upload]).take(CUTTINGS) {
        met.note(&request, &alike(&request));
    }
    println!("{met:?}");
    // A piece and an end answer at times with every number that they can, and never with another.
    assert_eq!(met.pieces, (1..=14).collect());
    assert_eq!(met.ends, (0..=14).collect());
    assert!(met.stores.iter().all(|count| *count >= CUTTINGS / 5), "{:?}", met.stores);
    assert!(met.overlong >= 300 && met.after_refusal >= 5_000);
}

/// What a piece must be answered, by the proved check of the bytes joined so far.
fn expected(standing: u64, joined: &[u8], room: usize) -> u64 {
    if standing != 0 {
        return standing;
    }
    if joined.len() > room {
        return NO_ROOM;
    }
    match check(joined) {
        answer if matches!(number(answer), 0 | 2) => NEED_MORE,
        refusal => refusal,
    }
}

/// One upload by the proved code over a store that holds `before`; every answer, state and byte
/// is as expected. Answers with the end's answer.
fn uploaded(pieces: &[&[u8]], before: &[u8]) -> u64 {
    let mut store = before.to_vec();
    let mut state = UploadState::default();
    let mut joined = Vec::new();
    for piece in pieces {
        let whole = [&joined[..], piece].concat();
        let due = expected(state[1], &whole, store.len());
        assert_eq!(upload_piece(&mut state, &mut store, piece), due);
        if due == NEED_MORE {
            joined = whole;
        }
        let standing = if due == NEED_MORE { 0 } else { due };
        assert_eq!(state, [joined.len() as u64, standing]);
        assert!(store[..joined.len()] == joined, "not stored, or a refused piece is");
        assert!(store[joined.len()..] == before[joined.len()..], "written behind the pieces");
    }
    let kept = (state, store.clone());
    let end = upload_end(&state, &store);
    assert_eq!(end, if state[1] == 0 { check(&joined) } else { state[1] });
    assert!(kept == (state, store), "changed by an end");
    end
}

#[test]
fn however_bytes_are_cut_they_end_as_the_check_of_the_whole() {
    let mut random = Random::new(SEED);
    let (mut accepted, mut refused, mut overlong) = (0, 0, 0);
    for turn in 0..4_000 {
        let bytes = match turn % 20 {
            0 if turn % 200 == 0 => of_length(&mut random, LIMIT),
            0 => near_limit(&mut random),
            1..=9 => transaction(&mut random),
            _ => {
                let accepted = transaction(&mut random);
                damaged(&mut random, accepted)
            }
        };
        let room = bytes.len() + random.pick(&[0, 0, 1, 30]);
        let before = random.bytes(room);
        let pieces = cut(&mut random, &bytes);
        let end = uploaded(&pieces, &before);
        if bytes.len() > LIMIT {
            assert!(!matches!(number(end), 0 | 2));
            overlong += 1;
        } else {
            assert_eq!(end, check(&bytes));
            accepted += usize::from(number(end) == 0);
            refused += usize::from(number(end) != 0);
        }
        // A store in which not all of them fit.
        let room = random.below(bytes.len() + 1);
        uploaded(&pieces, &before[..room]);
    }
    println!("{accepted} accepted, {refused} refused, {overlong} overlong");
    assert!(accepted > 1_500 && refused > 1_000 && overlong > 50);
}

/// A state that most often no call leaves.
fn forged(random: &mut Random, room: usize) -> UploadState {
    let stored = match random.below(6) {
        0 => random.number64(),
        1 => (room + random.below(3)) as u64,
        _ => random.below(room + 1) as u64,
    };
    let standing = match random.below(6) {
        0 => random.number64(),
        1 => random.number32().into(),
        2 => random.below(24) as u64 * (1 << 32) + u64::from(random.number32()),
        _ => 0,
    };
    [stored, standing]
}

/// The store of a forged call: any bytes, or some of a draft.
fn any_store(random: &mut Random) -> Vec<u8> {
    let length = random.below(400);
    if random.once_in(2) {
        return random.bytes(length);
    }
    let mut store = transaction(random);
    store.truncate(2_000);
    store.resize(store.len() + random.below(40), 0);
    store
}

#[test]
fn a_call_on_a_forged_state_ends_and_refuses_without_a_change() {
    let mut random = Random::new(SEED + 1);
    let (mut needed, mut ends) = (0, BTreeSet::new());
    for _ in 0..FORGED {
        let store = any_store(&mut random);
        let state = forged(&mut random, store.len());
        let end = upload_end(&state, &store);
        assert!(number(end) <= 14, "{end:x}");
        ends.insert(number(end));

        let length = random.below(60);
        let piece = random.bytes(length);
        let (mut next, mut after) = (state, store.clone());
        let answer = upload_piece(&mut next, &mut after, &piece);
        assert!((1..=14).contains(&number(answer)), "{answer:x}");
        if number(answer) == 2 {
            let stored = state[0] as usize;
            assert_eq!((answer, next), (NEED_MORE, [state[0] + piece.len() as u64, 0]));
            let joined = [&store[..stored], &piece, &store[stored + piece.len()..]].concat();
            assert!(after == joined, "not stored");
            needed += 1;
        } else {
            // The standing refusal is the one thing that a refusal changes.
            assert_eq!(next, [state[0], answer]);
            assert!(after == store, "written on a refusal");
            assert_eq!(upload_end(&next, &after), answer);
        }
    }
    println!("{needed} need more, ends {ends:?}");
    assert!((1_000..FORGED / 2).contains(&needed), "{needed} need more");
    assert!(ends.is_superset(&[0, 2, 3, 14].into()), "{ends:?}");
}

#[test]
fn more_stored_than_the_store_holds() {
    let a = case_a();
    for stored in [393, 1 << 32, u64::MAX - 1, u64::MAX] {
        for piece in [&[][..], &[0], &a] {
            let (mut state, mut store) = ([stored, 0], a.clone());
            assert_eq!(upload_end(&state, &store), NO_ROOM);
            assert_eq!(upload_piece(&mut state, &mut store, piece), NO_ROOM);
            assert_eq!((state, &store), ([stored, NO_ROOM], &a));
        }
    }
}

#[test]
fn the_proved_cases() {
    let a = case_a();
    let mut store = vec![9; 400];
    let mut state = UploadState::default();
    for piece in [&a[..46], &[], &a[46..391], &a[391..]] {
        assert_eq!(upload_piece(&mut state, &mut store, piece), NEED_MORE);
    }
    assert_eq!(upload_end(&state, &store), 392);
    assert_eq!(store, [&a[..], &[9; 8]].concat());
    assert_eq!(upload_piece(&mut state, &mut store, &[0]), (13 << 32) + 392);
    assert_eq!(upload_piece(&mut state, &mut store, &[0; 9]), (13 << 32) + 392);
    assert_eq!(upload_end(&state, &store), (13 << 32) + 392);
    assert_eq!(store, [&a[..], &[9; 8]].concat());
}
