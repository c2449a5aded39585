//! P1 to P14 of `Table of proved cases`, and the `Bad examples`.
#![allow(missing_docs)]

mod common;

use cellfacet_tests::{merge, rows};
use common::{case_a, checked, example, shown, with};

fn merged(first: &[u8], second: &[u8]) -> (String, Vec<u8>) {
    let mut output = vec![0xa5; first.len()];
    let answer = shown(merge(first, second, &mut output));
    (answer, output)
}

#[test]
fn p1_case_a_with_its_rows() {
    let a = case_a();
    let mut table = [7; 11];
    let transaction = rows(&a, &mut table).expect("case A is accepted");
    assert_eq!((transaction.length, transaction.rows), (392, 3));
    assert_eq!(table, [1, 46, 100, 2, 150, 92, 7, 254, 138, 7, 7]);
}

#[test]
fn p2_to_p12_refusals() {
    let a = case_a();
    assert_eq!(checked(&with(&a, 234, &[0, 0, 0, 7, 0, 0, 0, 3])), "6 238");
    assert_eq!(checked(&[]), "2 0");
    assert_eq!(checked(&[0, 1]), "3 0");
    assert_eq!(checked(&[&a[..], &[0]].concat()), "13 392");
    assert_eq!(checked(&with(&a, 82, &[0; 8])), "5 82");
    assert_eq!(checked(&with(&a, 98, &[0, 0, 0, 3])), "7 98");
    assert_eq!(checked(&with(&a, 98, &[0; 4])), "7 98");
    assert_eq!(checked(&with(&a, 126, &a[106..126])), "6 126");
    assert_eq!(checked(&with(&a, 258, &[0, 0, 0, 1])), "12 258");
    assert_eq!(checked(&a[..391]), "2 327");
    assert_eq!(checked(&with(&a, 242, &[0, 0, 1, 1])), "8 242");
}

#[test]
fn p13_each_slot_from_the_draft_that_holds_it() {
    let a = case_a();
    let first = with(&a, 262, &[0; 65]);
    let second = with(&a, 327, &[0; 65]);
    assert_eq!(merged(&first, &second), ("0 392".into(), a));
}

#[test]
fn p14_two_signatures_in_slot_1() {
    let a = case_a();
    assert_eq!(merged(&a, &with(&a, 391, &[1])), ("20 1".into(), vec![0xa5; 392]));
}

#[test]
fn bad_examples() {
    let signed = example("dijets-vm/signed-transaction.hex").bytes;
    assert_eq!(checked(&signed), "6 238");
    assert_eq!(checked(&with(&signed, 234, &[0, 0, 0, 3, 0, 0, 0, 7])), "8 250");
}
