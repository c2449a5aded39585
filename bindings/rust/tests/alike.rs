//! The bindings answer as the independent program does, and as the header says.
#![allow(missing_docs)]

use std::collections::{BTreeMap, BTreeSet};

use cellfacet::{Reason, Slot};
use cellfacet_tests::draft;
use cellfacet_tests::encode::Encoder;
use cellfacet_tests::generate::damage::damaged;
use cellfacet_tests::generate::valid::{refill, small_transaction, transaction};
use cellfacet_tests::generate::{Kind, Random, Requests};
use cellfacet_tests::lines::unhex;
use cellfacet_tests::transaction::Entry;

const SEED: u64 = 20_251_116;
const COUNT: usize = 2_000;

/// Number and place of an answer, 0 where it is done.
fn shown(answer: Result<usize, cellfacet::Refusal>) -> (u32, usize) {
    answer.map_or_else(|refusal| (refusal.reason.number(), refusal.place), |place| (0, place))
}

fn expected(answer: Result<usize, cellfacet_tests::Refusal>) -> (u32, usize) {
    answer.map_or_else(|refusal| (refusal.number as u32, refusal.place), |place| (0, place))
}

#[test]
fn random_bytes() {
    let mut random = Random::new(SEED);
    let mut met = [0; 2];
    for turn in 0..COUNT {
        let valid = transaction(&mut random);
        let bytes = if turn % 2 == 0 { valid } else { damaged(&mut random, valid) };
        let read = cellfacet_tests::check(&bytes);
        met[usize::from(read.is_ok())] += 1;
        assert_eq!(shown(cellfacet::check(&bytes)), expected(read.map(|read| read.length)));
        rows_alike(&bytes);
        slots_alike(&bytes);
    }
    assert!(met[0] > COUNT / 10 && met[1] > COUNT / 3, "{met:?}");
}

fn rows_alike(bytes: &[u8]) {
    let (mut table, mut rows) = ([7; 60], [7; 60]);
    let answer = cellfacet_tests::rows(bytes, &mut rows).map(|read| read.rows);
    assert_eq!(shown(cellfacet::rows(bytes, &mut table)), expected(answer));
    assert_eq!(table, rows);
}

/// The slots as the independent program finds them.
fn expected_slots(bytes: &[u8]) -> Result<Vec<Slot>, cellfacet_tests::Refusal> {
    let mut ends = Vec::new();
    let read = cellfacet_tests::read(bytes, |row, entry| {
        if let Entry::Credential(_) = entry {
            ends.push(row.start + row.length);
        }
    })?;
    let slots = draft::slots(bytes, &read).map(|place| Slot {
        credential: ends.iter().filter(|end| **end <= place).count(),
        place,
        filled: bytes[place..place + cellfacet::SIGNATURE] != [0; cellfacet::SIGNATURE],
    });
    Ok(slots.collect())
}

fn slots_alike(bytes: &[u8]) {
    let expected = expected_slots(bytes);
    let count = expected.as_ref().map_or(0, Vec::len);
    let numbers = expected
        .iter()
        .flatten()
        .flat_map(|slot| [slot.credential as u32, slot.place as u32, u32::from(slot.filled)]);
    let rows: Vec<u32> = numbers.chain([7; 2]).collect();
    let mut table = vec![7; rows.len()];
    let answer = shown(cellfacet::slot_rows(bytes, &mut table));
    assert_eq!(answer, self::expected(expected.clone().map(|_| count)));
    assert_eq!(table, rows);
    let slots = cellfacet::slots(bytes);
    assert_eq!(shown(slots.clone().map(|slots| slots.len())), answer);
    assert_eq!(slots.unwrap_or_default(), expected.unwrap_or_default());
    no_room(bytes, answer, count);
}

/// One number too few: refused, after every rule, and nothing is written.
fn no_room(bytes: &[u8], answer: (u32, usize), count: usize) {
    let mut table = vec![7; (3 * count).saturating_sub(1)];
    let refusal = if answer.0 == 0 && count > 0 { (14, 0) } else { answer };
    assert_eq!(shown(cellfacet::slot_rows(bytes, &mut table)), refusal);
    assert!(table.iter().all(|number| *number == 7));
}

#[test]
fn random_drafts() {
    let mut random = Random::new(SEED);
    let mut met = [0; 2];
    for _ in 0..COUNT {
        let mut draft = small_transaction(&mut random);
        let places: Vec<usize> =
            expected_slots(&draft).into_iter().flatten().map(|slot| slot.place).collect();
        refill(&mut random, &mut draft, &places, &BTreeMap::new());
        slots_alike(&draft);
        for slot in cellfacet::slots(&draft).expect("accepted") {
            met[usize::from(slot.filled)] += 1;
        }
    }
    assert!(met[0] > COUNT / 10 && met[1] > COUNT / 10, "{met:?}");
}

/// As many slots as 65,536 bytes allow: one input, one imported input, one operation.
#[test]
fn most_slots() {
    let indices: Vec<u32> = (0..947).collect();
    let input = |bytes: Encoder| {
        bytes.u32(1).raw(&[1; 32]).u32(0).raw(&[2; 32]).u32(5).u64(1).numbers(&indices)
    };
    let head = |type_id| Encoder::new().u16(0).u32(type_id).u32(1).raw(&[0; 32]).u32(0);
    let base = input(head(0)).u32(0);
    let import = input(head(3).u32(0).u32(0).raw(&[0; 32]));
    let operation = head(2).u32(0).u32(0).u32(1).raw(&[2; 32]).u32(0);
    let operation = operation.u32(12).numbers(&indices).u32(0).u32(0).u32(0);
    for (unsigned, credential) in [(base, 9), (import, 9), (operation, 14)] {
        let signatures = vec![[1; cellfacet::SIGNATURE]; indices.len()];
        let bytes = unsigned.u32(1).u32(credential).list(&signatures).done();
        assert!(cellfacet::MOST_BYTES - bytes.len() < 69, "no room for one more");
        assert_eq!(
            3 * cellfacet::slots(&bytes).map_or(0, |slots| slots.len()),
            cellfacet::SLOT_NUMBERS
        );
        slots_alike(&bytes);
    }
}

#[test]
fn random_merges() {
    let mut met = BTreeSet::new();
    for request in Requests::new(SEED, vec![Kind::Merge]).take(COUNT) {
        let words: Vec<&str> = request.split(' ').collect();
        let ["merge", first, second, room] = words[..] else {
            continue;
        };
        let (first, second) = (unhex(first).expect("hex"), unhex(second).expect("hex"));
        let room: usize = room.parse().expect("a number");
        let (mut out, mut buffer) = (vec![0xa5; room], vec![0xa5; room]);
        let answer = shown(cellfacet::merge(&first, &second, &mut out));
        assert_eq!(answer, expected(draft::merge(&first, &second, &mut buffer)), "{request}");
        assert_eq!(out, buffer, "{request}");
        met.insert(answer.0);
    }
    assert_eq!(met, BTreeSet::from([0, 14, 17, 18, 19, 20]));
}

#[test]
fn random_uploads() {
    let (mut met, mut ends) = (BTreeSet::new(), BTreeSet::new());
    for request in Requests::new(SEED, vec![Kind::Upload]).take(4 * COUNT) {
        let mut words = request.split(' ').skip(1);
        let room: usize = words.next().and_then(|room| room.parse().ok()).expect("a number");
        let (mut store, mut buffer) = (vec![0xa5; room], vec![0xa5; room]);
        let mut upload = cellfacet::Upload::new(&mut store);
        let mut independent = cellfacet_tests::Upload::new();
        for piece in words.map(|word| unhex(word).expect("hex")) {
            let answer = shown(upload.piece(&piece).map(|()| 0));
            let piece = independent.piece(&mut buffer, &piece).map(|()| 0);
            assert_eq!(answer, expected(piece), "{request}");
            met.insert(answer.0);
        }
        let end = shown(upload.end());
        assert_eq!(end, expected(independent.end(&buffer)), "{request}");
        assert_eq!(store, buffer, "{request}");
        ends.insert(end.0);
    }
    // Need more is no refusal of a piece; an end is refused as cut short at times.
    assert_eq!(met, (0..=14).filter(|number| *number != 2).collect());
    assert_eq!(ends, (0..=14).collect());
}

/// A refusal ends with its upload: over the same store a new one is fresh.
#[test]
fn a_fresh_start() {
    let signed = include_bytes!("../../../tests/data/case-a.tx");
    let mut store = [7; 392];
    let mut upload = cellfacet::Upload::new(&mut store);
    assert_eq!(shown(upload.piece(&[1; 393]).map(|()| 0)), (14, 0));
    assert_eq!(shown(upload.piece(&[]).map(|()| 0)), (14, 0));
    assert_eq!(shown(upload.end()), (14, 0));
    let mut upload = cellfacet::Upload::new(&mut store);
    assert_eq!(shown(upload.end()), (2, 0));
    assert_eq!(upload.piece(signed), Ok(()));
    assert_eq!(upload.end(), Ok(392));
    assert_eq!(&store, signed);
}

#[test]
fn numbers_of_the_header() {
    let header = include_str!("../../../include/cellfacet.h");
    assert!(Reason::ALL.windows(2).all(|pair| pair[0].number() < pair[1].number()));
    for reason in Reason::ALL {
        assert_eq!(Reason::of_number(reason.number()), Some(*reason));
        // UnknownType is CELLFACET_UNKNOWN_TYPE.
        let mut name = String::from("CELLFACET");
        for letter in format!("{reason:?}").chars() {
            if letter.is_uppercase() {
                name.push('_');
            }
            name.push(letter.to_ascii_uppercase());
        }
        let line = format!("    {name} = {}", reason.number());
        let found = header.lines().any(|other| other.trim_end_matches(',') == line);
        assert!(found, "{line}");
    }
    let named = (0..=u16::MAX.into()).filter_map(Reason::of_number);
    assert!(named.eq(Reason::ALL.iter().copied()), "no other number has a reason");
}
