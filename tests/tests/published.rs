//! The published examples, each with the answer that stands in its data file.
#![allow(missing_docs)]

mod common;

use std::fs;

use cellfacet_tests::element::{alone, Kind};
use cellfacet_tests::encode::Encoder;
use common::{case_a, checked, data, example, shown, with, Example};

/// Two inputs' worth of blank credentials behind an unsigned example.
fn signed_blank(unsigned: &[u8], inputs: usize) -> Vec<u8> {
    let blank = common::credential(9, &[[0; 65]; 2]);
    let signed = Encoder::new().u16(0).raw(unsigned);
    signed.list(&vec![blank; inputs]).done()
}

fn answer(example: &Example) -> String {
    let element = |kind| shown(alone(kind, &example.bytes));
    match example.read_as.as_str() {
        "output" => element(Kind::Output),
        "transferable-output" => element(Kind::TransferableOutput),
        "input" => element(Kind::Input),
        "transferable-input" => element(Kind::TransferableInput),
        "operation" => element(Kind::Operation),
        "transferable-operation" => element(Kind::TransferableOperation),
        "initial-state" => element(Kind::InitialState),
        "credential" => element(Kind::Credential),
        "unsigned" => checked(&signed_blank(&example.bytes, 1)),
        "signed" => checked(&example.bytes),
        "utxo" => shown(alone(Kind::Output, &example.bytes[70..])),
        other => panic!("unknown reading {other:?}"),
    }
}

fn examples_in(folder: &str) -> usize {
    let files = fs::read_dir(data().join(folder)).expect("a data folder");
    let answered = files.map(|file| {
        let path = file.expect("a file").path();
        let example = example(&path);
        assert_eq!(answer(&example), example.answer, "{}", path.display());
    });
    answered.count()
}

#[test]
fn every_example_has_its_answer() {
    assert_eq!(examples_in("dijets-vm"), 24);
    assert_eq!(examples_in("avm-es"), 20);
}

#[test]
fn case_a_is_the_signed_example_put_right() {
    let signed = example("dijets-vm/signed-transaction.hex").bytes;
    let indices = [0, 0, 0, 3, 0, 0, 0, 7];
    let right = with(&with(&signed, 2, &[0; 4]), 234, &indices);
    assert_eq!(right, case_a());
    assert_eq!(right, fs::read(data().join("case-a.tx")).expect("case A"));
    // With the indices alone put right, type 1 goes on to a name that is empty.
    assert_eq!(checked(&with(&signed, 234, &indices)), "8 250");
}

#[test]
fn unsigned_examples_with_indices_put_right() {
    let right = |folder: &str, name: &str| {
        let bytes = example(format!("{folder}/{name}-transaction.hex")).bytes;
        with(&bytes, 232, &[0, 0, 0, 3, 0, 0, 0, 7])
    };
    for folder in ["dijets-vm", "avm-es"] {
        let accepted = [("base", 1), ("create-asset", 1), ("import", 2), ("export", 1)];
        for (name, inputs) in accepted {
            let signed = signed_blank(&right(folder, name), inputs);
            assert_eq!(checked(&signed), format!("0 {}", signed.len()), "{folder} {name}");
        }
        // The operation lacks its locktime, so its second address is cut short; with
        // credentials behind it, that address is no longer in order.
        let operation = right(folder, "operation");
        let unsigned = Encoder::new().u16(0).raw(&operation).done();
        assert_eq!(checked(&unsigned), "2 389");
        assert_eq!(checked(&signed_blank(&operation, 1)), "6 389");
    }
}
