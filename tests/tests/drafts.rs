//! Filling and merging drafts.
#![allow(missing_docs)]

mod common;

use cellfacet_tests::generate::drafts::{copies, merge_of, Grouping};
use cellfacet_tests::generate::Random;
use cellfacet_tests::{fill, merge, phone};
use common::{case_a, shown, with};

fn filled(draft: &[u8], slot: usize, signature: &[u8]) -> (String, Vec<u8>) {
    let mut lent = draft.to_vec();
    let answer = shown(fill(&mut lent, slot, signature));
    (answer, lent)
}

fn merged(first: &[u8], second: &[u8], room: usize) -> (String, Vec<u8>) {
    let mut output = vec![0xa5; room];
    let answer = shown(merge(first, second, &mut output));
    (answer, output)
}

#[test]
fn filling_an_empty_slot() {
    let a = case_a();
    let open = with(&a, 327, &[0; 65]);
    assert_eq!(filled(&open, 1, &a[327..]), ("0 392".into(), a));
}

#[test]
fn filling_is_refused_in_order_and_changes_nothing() {
    let a = case_a();
    let cut = a[..391].to_vec();
    assert_eq!(filled(&cut, 2, &[1; 64]), ("17 0".into(), cut));
    assert_eq!(filled(&a, 2, &[1; 64]), ("15 0".into(), a.clone()));
    assert_eq!(filled(&a, 1, &[1; 64]), ("21 0".into(), a.clone()));
    assert_eq!(filled(&a, 1, &[0; 66]), ("21 0".into(), a.clone()));
    assert_eq!(filled(&a, 1, &[1; 65]), ("20 1".into(), a.clone()));
    assert_eq!(filled(&a, 0, &[1; 65]), ("20 0".into(), a));
}

#[test]
fn filling_with_what_is_held_or_with_zeros_changes_nothing() {
    let a = case_a();
    assert_eq!(filled(&a, 0, &a[262..327]), ("0 392".into(), a.clone()));
    assert_eq!(filled(&a, 1, &[0; 65]), ("0 392".into(), a.clone()));
    let open = with(&a, 262, &[0; 65]);
    assert_eq!(filled(&open, 0, &[0; 65]), ("0 392".into(), open));
    assert_eq!(filled(&a, 2, &[0; 65]), ("15 0".into(), a));
}

#[test]
fn a_slot_with_one_byte_is_filled() {
    let a = case_a();
    for place in [262, 300, 326] {
        let one = with(&with(&a, 262, &[0; 65]), place, &[1]);
        assert_eq!(filled(&one, 0, &a[262..327]).0, "20 0");
        assert_eq!(merged(&one, &a, 392).0, "20 0");
        assert_eq!(merged(&a, &one, 392).0, "20 0");
    }
}

#[test]
fn merging_is_refused_in_order_and_changes_nothing() {
    let a = case_a();
    let other = with(&a, 6, &[9]);
    let conflict = with(&with(&a, 391, &[1]), 263, &[9]);
    let refused = |first: &[u8], second: &[u8], room: usize, answer: &str| {
        assert_eq!(merged(first, second, room), (answer.into(), vec![0xa5; room]));
    };
    refused(&a[..391], &a[..391], 0, "17 0");
    refused(&a, &a[..391], 0, "18 0");
    refused(&other, &conflict, 0, "19 0");
    refused(&a, &conflict, 0, "20 0");
    refused(&a, &with(&a, 391, &[1]), 391, "20 1");
    refused(&a, &a, 391, "14 0");
}

#[test]
fn merging_writes_the_front_only() {
    let a = case_a();
    let (answer, output) = merged(&a, &a, 400);
    assert_eq!(answer, "0 392");
    assert_eq!(output, [&a[..], &[0xa5; 8]].concat());
}

#[test]
fn the_phone_gets_number_and_place_in_one() {
    let a = case_a();
    assert_eq!(phone::check(&a), 392);
    assert_eq!(phone::check(&a[..391]), (2 << 32) + 327);
    let mut output = [0; 392];
    assert_eq!(phone::merge(&a, &with(&a, 391, &[1]), &mut output), (20 << 32) + 1);
    assert_eq!(phone::merge(&a, &a, &mut output[..391]), 14 << 32);
    assert_eq!(phone::merge(&a, &a, &mut output), 392);
}

#[test]
fn every_grouping_gives_the_merge_of_the_list() {
    let mut random = Random::new(11);
    let mut conflicts = 0;
    for _ in 0..300 {
        let (count, conflicting) = (1 + random.below(5), random.once_in(3));
        let drafts = copies(&mut random, count, conflicting);
        let list: Vec<&[u8]> = drafts.iter().map(|draft| &draft[..]).collect();
        let defined = merge_of(&list).ok();
        conflicts += usize::from(defined.is_none());
        for _ in 0..5 {
            let grouping = Grouping::new(&mut random, count);
            let result = grouping.run(&drafts, &mut |first, second| {
                let (answer, output) = merged(first, second, first.len());
                if answer == format!("0 {}", first.len()) {
                    Ok(output)
                } else {
                    Err(answer)
                }
            });
            match (result, &defined) {
                (Ok(result), Some(merge)) => assert_eq!(&result, merge),
                (Err(answer), None) => assert!(answer.starts_with("20 "), "{answer}"),
                (result, _) => panic!("{result:?}"),
            }
        }
    }
    assert!((20..200).contains(&conflicts), "{conflicts} conflicts");
}
