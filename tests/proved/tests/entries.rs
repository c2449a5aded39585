//! The proved program `entries`, run over the folders of `tests/cases` and over files of random
//! transactions, prints what is expected.
#![allow(missing_docs)]

use std::fs;
use std::path::{Path, PathBuf};
use std::process::Command;
use std::sync::Once;

use cellfacet_tests::generate::damage::damaged;
use cellfacet_tests::generate::valid::transaction;
use cellfacet_tests::generate::Random;
use cellfacet_tests::lines::Hex;
use cellfacet_tests::{rows, Refusal};

const SEED: u64 = 20_251_116;
const ACCEPTED: usize = 400;
const DAMAGED: usize = 200;

/// The program, which is proved and built where it is missing.
fn program() -> PathBuf {
    static BUILT: Once = Once::new();
    let folder = Path::new(env!("CARGO_MANIFEST_DIR")).join("../../crates/entries");
    let program = folder.join("out/entries");
    BUILT.call_once(|| {
        if !program.exists() {
            let run = ["run", "--", "data/case-a.tx"];
            let run = Command::new("rt").args(run).current_dir(&folder).status();
            assert!(run.expect("rt").success(), "`rt run` in crates/entries failed");
        }
    });
    program.canonicalize().expect("the program")
}

/// What the program writes on standard output and standard error about the file `in`.
fn run(folder: &Path) -> (String, String) {
    let output = Command::new(program()).arg("in").current_dir(folder).output();
    let output = output.expect("the program runs");
    let text = |bytes| String::from_utf8(bytes).expect("text");
    (text(output.stdout), text(output.stderr))
}

/// An own folder for a test, with the file `in`.
fn folder(name: &str, bytes: &[u8]) -> PathBuf {
    let folder = Path::new(env!("CARGO_TARGET_TMPDIR")).join(name);
    fs::create_dir_all(&folder).expect("a folder");
    fs::write(folder.join("in"), bytes).expect("a file");
    folder
}

/// The lines by the independent program.
fn expected(bytes: &[u8]) -> String {
    let mut table = vec![0; 9816];
    match rows(bytes, &mut table) {
        Ok(transaction) => {
            let rows = table.chunks_exact(3).take(transaction.rows);
            rows.map(|row| format!("{} {} {}\n", row[0], row[1], row[2])).collect()
        }
        Err(Refusal { number, place }) => format!("{} {place}\n", number as u32),
    }
}

fn alike(name: &str, bytes: &[u8]) {
    let (stdout, stderr) = run(&folder(name, bytes));
    let request = || format!("request: check {} 9816", Hex(bytes));
    assert_eq!(stdout, expected(bytes), "{}", request());
    assert_eq!(stderr, "", "{}", request());
}

#[test]
fn the_cases() {
    let cases = Path::new(env!("CARGO_MANIFEST_DIR")).join("../cases");
    let mut met = 0;
    for case in fs::read_dir(cases).expect("the cases") {
        let case = case.expect("a case").path();
        let stdout = fs::read_to_string(case.join("stdout")).expect("the expected lines");
        let stderr = fs::read_to_string(case.join("stderr")).unwrap_or_default();
        assert_eq!(run(&case), (stdout, stderr), "{}", case.display());
        met += 1;
    }
    assert_eq!(met, 5);
}

#[test]
fn longer_than_any_transaction() {
    for length in [65_535, 65_536, 65_537, 65_538, 70_000] {
        alike("longer", &vec![0; length]);
    }
    let (stdout, _) = run(&folder("longer", &vec![0; 70_000]));
    assert_eq!(stdout, "1 0\n");
}

#[test]
fn random_transactions() {
    println!("seed {SEED}, {ACCEPTED} accepted and {DAMAGED} damaged transactions");
    let mut random = Random::new(SEED);
    for _ in 0..ACCEPTED {
        alike("random", &transaction(&mut random));
    }
    for _ in 0..DAMAGED {
        let accepted = transaction(&mut random);
        alike("random", &damaged(&mut random, accepted));
    }
}
