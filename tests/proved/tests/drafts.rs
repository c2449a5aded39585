//! Filling and merging by the proved code and by the independent program: call by call, and over
//! whole groupings, whose result is the merge of the list by its definition.
#![allow(missing_docs)]

use std::collections::{BTreeMap, BTreeSet};
use std::fs;
use std::path::Path;

use cellfacet_proved::compare::both;
use cellfacet_proved::Proved;
use cellfacet_tests::encode::Encoder;
use cellfacet_tests::generate::drafts::{copies, merge_of, places, Grouping};
use cellfacet_tests::generate::{Kind, Random, Requests};
use cellfacet_tests::independent::Independent;
use cellfacet_tests::lines::{Answer, Answers};

const SEED: u64 = 20_251_118;
const REQUESTS: usize = 150_000;
const LISTS: usize = 6_000;
const GROUPINGS: usize = 5;

/// Done, and every refusal that a call can give.
const FILL: [u64; 5] = [0, 15, 17, 20, 21];
const MERGE: [u64; 6] = [0, 14, 17, 18, 19, 20];

#[test]
fn random_requests() {
    println!("seed {SEED}, {REQUESTS} requests");
    let mut met: BTreeMap<String, BTreeSet<u64>> = BTreeMap::new();
    let kinds = vec![Kind::Fill, Kind::Merge, Kind::PhoneMerge];
    for request in Requests::new(SEED, kinds).take(REQUESTS) {
        let answer = both(&request).unwrap_or_else(|difference| panic!("\n{difference}"));
        let call = request.split(' ').next().expect("a call");
        let first = answer.split(' ').next().and_then(|number| number.parse().ok());
        let first: u64 = first.expect("a number");
        let number = if call == "phone-merge" { first >> 32 } else { first };
        met.entry(call.into()).or_default().insert(number);
    }
    let expected = [("fill", &FILL[..]), ("merge", &MERGE), ("phone-merge", &MERGE)];
    let expected =
        expected.map(|(call, numbers)| (call.into(), numbers.iter().copied().collect()));
    assert_eq!(met, expected.into());
}

/// One call by both, over an output buffer of any content, with room for a draft and more.
/// What it answers and writes is what the definition says of its two drafts.
fn call(random: &mut Random, first: &[u8], second: &[u8]) -> Result<Vec<u8>, Answer> {
    let room = first.len() + random.pick(&[0, 0, 1, 64, 65, 66, 1000]);
    let before = if random.once_in(2) { random.bytes(room) } else { vec![random.byte(); room] };
    let (mut output, mut other) = (before.clone(), before.clone());
    let answer = Proved.merge(first, second, &mut output).expect("an answer");
    assert_eq!(Independent.merge(first, second, &mut other), Some(answer));
    assert!(output == other, "written differently");
    match merge_of(&[first, second]) {
        Ok(merge) => {
            assert_eq!(answer, Answer { number: 0, place: merge.len() as u64 });
            assert!(output[..merge.len()] == merge, "not the merge");
            assert!(output[merge.len()..] == before[merge.len()..], "written behind the merge");
            Ok(merge)
        }
        Err(slot) => {
            assert_eq!(answer, Answer { number: 20, place: slot as u64 });
            assert!(output == before, "written on a refusal");
            Err(answer)
        }
    }
}

#[test]
fn every_grouping_gives_the_merge_of_the_list() {
    println!("seed {SEED}, {LISTS} lists, {GROUPINGS} groupings of each");
    let mut random = Random::new(SEED);
    let (mut calls, mut conflicts) = (0, 0);
    for _ in 0..LISTS {
        let (count, conflicting) = (2 + random.below(5), random.once_in(2));
        let drafts = copies(&mut random, count, conflicting);
        let list: Vec<&[u8]> = drafts.iter().map(|draft| &draft[..]).collect();
        let defined = merge_of(&list);
        conflicts += usize::from(defined.is_err());
        for _ in 0..GROUPINGS {
            let grouping = Grouping::new(&mut random, count);
            let result = grouping.run(&drafts, &mut |first, second| {
                calls += 1;
                call(&mut random, first, second)
            });
            match (&result, &defined) {
                (Ok(result), Ok(merge)) => assert!(result == merge, "not the merge"),
                // The conflict is met exactly where some slot holds two signatures.
                (Err(answer), Err(_)) => assert_eq!(answer.number, 20),
                _ => panic!("{result:?} where the list's merge is {defined:?}"),
            }
        }
    }
    println!("{calls} calls, {conflicts} lists with a conflict");
    assert!(calls >= 50_000 && (500..LISTS / 2).contains(&conflicts), "{calls}, {conflicts}");
}

/// Fills slot by slot what an emptied draft lacks, by both, in any order: the merge again.
#[test]
fn filling_what_is_missing_gives_the_merge() {
    let mut random = Random::new(SEED + 1);
    for _ in 0..2_000 {
        let drafts = copies(&mut random, 2, false);
        let merge = merge_of(&[&drafts[0], &drafts[1]]).expect("no conflict");
        let places = places(&merge);
        let (mut draft, mut other) = (drafts[0].clone(), drafts[0].clone());
        let mut slots: Vec<usize> = (0..places.len()).collect();
        while !slots.is_empty() {
            let slot = slots.swap_remove(random.below(slots.len()));
            let place = places[slot];
            let signature = &merge[place..place + 65];
            let answer = Proved.fill(&mut draft, slot as u64, signature);
            assert_eq!(answer, Some(Answer { number: 0, place: merge.len() as u64 }));
            assert_eq!(Independent.fill(&mut other, slot as u64, signature), answer);
            assert!(draft == other, "filled differently");
        }
        assert!(draft == merge, "not the merge");
    }
}

/// Merged by both, either way round, with the same answer, which is given back.
fn merged(first: &[u8], second: &[u8]) -> Answer {
    let answers = [[first, second], [second, first]].map(|[first, second]| {
        let (mut output, mut other) = (vec![9; first.len()], vec![9; first.len()]);
        let answer = Proved.merge(first, second, &mut output).expect("an answer");
        assert_eq!(Independent.merge(first, second, &mut other), Some(answer));
        assert!(output == other, "written differently");
        answer
    });
    assert_eq!(answers[0], answers[1]);
    answers[0]
}

/// Unsigned parts that differ in one byte, for every length up to more than two blocks of 64 bytes
/// and every byte of a memo.
#[test]
fn one_byte_tells_drafts_apart() {
    for length in 0..=150 {
        let draft = |memo: &[u8]| {
            let base = Encoder::new().u16(0).u32(0).u32(1).raw(&[3; 32]);
            base.u32(0).u32(0).string(memo).u32(0).done()
        };
        let memo = vec![0x80; length];
        let bytes = draft(&memo);
        let done = Answer { number: 0, place: bytes.len() as u64 };
        assert_eq!(merged(&bytes, &bytes), done);
        for place in 0..length {
            for value in [0, 0x7f, 0x81, 0xff] {
                let mut other = memo.clone();
                other[place] = value;
                assert_eq!(merged(&bytes, &draft(&other)), Answer { number: 19, place: 0 });
            }
        }
    }
}

/// A slot is filled if any one byte of it is not zero, and two signatures differ if any one byte does.
#[test]
fn one_byte_fills_a_slot() {
    let a = with(0, &[]);
    for byte in 0..65 {
        let mut slot = [0; 65];
        slot[byte] = 1;
        let other = with(327, &slot);
        assert_eq!(merged(&a, &other), Answer { number: 20, place: 1 });
        let done = Answer { number: 0, place: 392 };
        assert_eq!(merged(&with(327, &[0; 65]), &other), done);
        let mut changed = other.clone();
        changed[327 + byte] = 2;
        assert_eq!(merged(&changed, &other), Answer { number: 20, place: 1 });
    }
}

/// Case A with some bytes replaced from a place on.
fn with(place: usize, bytes: &[u8]) -> Vec<u8> {
    let path = Path::new(env!("CARGO_MANIFEST_DIR")).join("../data/case-a.tx");
    let mut a = fs::read(path).expect("case A");
    a[place..place + bytes.len()].copy_from_slice(bytes);
    a
}

#[test]
fn the_proved_cases() {
    let a = with(0, &[]);
    let open = [262, 327].map(|place| with(place, &[0; 65]));
    let mut output = vec![9; 400];
    // P13, either way round, and P14.
    for [first, second] in [[0, 1], [1, 0]] {
        output.fill(9);
        assert_eq!(Proved.phone_merge(&open[first], &open[second], &mut output), Some(392));
        assert_eq!(output, [&a[..], &[9; 8]].concat());
    }
    let conflict = Answer { number: 20, place: 1 };
    assert_eq!(Proved.merge(&a, &with(391, &[1]), &mut output), Some(conflict));
    assert_eq!(output, [&a[..], &[9; 8]].concat());
    let mut draft = open[1].clone();
    let done = Answer { number: 0, place: 392 };
    assert_eq!(Proved.fill(&mut draft, 1, &a[327..]), Some(done));
    assert_eq!(draft, a);
}
