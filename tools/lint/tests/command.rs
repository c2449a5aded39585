//! The program: what it prints, and its exit status.

use std::path::{Path, PathBuf};
use std::process::{Command, Output};
use std::{env, fs, process};

/// A folder of a test's own. It is outside the repository, and goes with the test: in the repository no
/// `.antt` file may stand but in a crate.
struct Folder(PathBuf);

impl Folder {
    fn with(name: &str, files: &[(&str, &[u8])]) -> Folder {
        let root = env::temp_dir().join(format!("cellfacet-lint-{}-{name}", process::id()));
        for (file, bytes) in files {
            let path = root.join(file);
            fs::create_dir_all(path.parent().unwrap()).unwrap();
            fs::write(path, bytes).unwrap();
        }
        Folder(root)
    }
}

impl Drop for Folder {
    fn drop(&mut self) {
        let _ = fs::remove_dir_all(&self.0);
    }
}

fn run(root: &Path, words: &[&str]) -> (i32, String, String) {
    let program = env!("CARGO_BIN_EXE_cellfacet-lint");
    let Output { status, stdout, stderr } =
        Command::new(program).args(words).current_dir(root).output().unwrap();
    let text = |bytes| String::from_utf8(bytes).unwrap();
    (status.code().unwrap(), text(stdout), text(stderr))
}

const FAULTY: &[u8] = b"use M.{a}\n\npub f : T\nf = x\n";

#[test]
fn findings_are_printed_with_their_places() {
    let root = Folder::with("faulty", &[("crates/c/specs/S.antt", FAULTY)]);
    let (status, out, _) = run(&root.0, &[]);
    let lines: Vec<&str> = out.lines().collect();
    assert_eq!(status, 1);
    assert_eq!(lines[0], "crates/c/specs/S.antt:1: import a is not used");
    assert_eq!(lines[1], "crates/c/specs/S.antt:3: nothing needs f");
    assert!(lines[2].starts_with("1 files: 1 unused imports, 1 dead definitions, 0 long lines"));
}

#[test]
fn checks_can_be_chosen() {
    let root = Folder::with("chosen", &[("crates/c/specs/S.antt", FAULTY)]);
    assert_eq!(run(&root.0, &["links"]), (0, "1 files: 0 bad links\n".into(), String::new()));
    assert_eq!(run(&root.0, &["links", "dead"]).0, 1);
    assert_eq!(run(&root.0, &["link"]).0, 2);
}

#[test]
fn what_cannot_be_read_is_told() {
    let root = Folder::with("unread", &[("crates/c/specs/S.antt", b"f : \xff\n")]);
    let (status, out, told) = run(&root.0, &[]);
    assert_eq!((status, out.as_str()), (2, ""));
    assert!(told.contains("crates/c/specs/S.antt"));
    let empty = Folder::with("empty", &[("A.md", b"a\n")]);
    assert_eq!(run(&empty.0, &[]).0, 2);
}
