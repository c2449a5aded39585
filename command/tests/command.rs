//! What the command writes and how it ends, for files of every kind.
#![allow(missing_docs)]

use std::path::PathBuf;
use std::process::Command;
use std::{env, fs, process};

/// Case A: two slots, at 262 and 327.
const CASE_A: &[u8; 392] = include_bytes!("../../tests/data/case-a.tx");
const SLOTS: [usize; 2] = [262, 327];

/// Exit status, standard output, standard error.
type Ended = (i32, String, String);

/// A folder of a test's own, in which the command is run. It is outside the repository, and goes with the
/// test: `rt ci` takes no repository with a link in it.
struct Folder(PathBuf);

impl Drop for Folder {
    fn drop(&mut self) {
        let _ = fs::remove_dir_all(&self.0);
    }
}

impl Folder {
    /// With the files that every test may name: `a` and copies of it.
    fn new(name: &str) -> Folder {
        let path = env::temp_dir().join(format!("cellfacet-command-{}-{name}", process::id()));
        fs::create_dir_all(path.join("folder")).expect("a folder");
        let folder = Folder(path);
        folder.put("a", CASE_A);
        folder.put("first", &emptied(1));
        folder.put("second", &emptied(0));
        let mut blank = emptied(0);
        blank[SLOTS[1]..].fill(0);
        folder.put("blank", &blank);
        folder.put("other", &with(391, &[1]));
        folder.put("damaged", &with(234, &[0, 0, 0, 7, 0, 0, 0, 3]));
        folder.put("another", &with(246, &[7]));
        folder.put("empty", &[]);
        folder.put("long", &[0; 70_000]);
        folder
    }

    fn put(&self, name: &str, bytes: &[u8]) {
        fs::write(self.0.join(name), bytes).expect("a file");
    }

    fn get(&self, name: &str) -> Vec<u8> {
        fs::read(self.0.join(name)).expect("a file")
    }

    /// The files' names, in order.
    fn names(&self) -> Vec<String> {
        let found = fs::read_dir(&self.0).expect("the folder");
        let name = |file: fs::DirEntry| file.file_name().into_string().expect("a name");
        let mut names: Vec<_> = found.map(|file| name(file.expect("a file"))).collect();
        names.sort();
        names
    }

    fn run(&self, line: &str) -> Ended {
        let mut command = Command::new(env!("CARGO_BIN_EXE_cellfacet"));
        let output = command.args(line.split_whitespace()).current_dir(&self.0).output();
        let output = output.expect("the command runs");
        let text = |bytes| String::from_utf8(bytes).expect("text");
        (output.status.code().expect("a status"), text(output.stdout), text(output.stderr))
    }

    /// The command succeeds, and says this.
    fn says(&self, line: &str, stdout: &str) {
        assert_eq!(self.run(line), (0, stdout.into(), "".into()), "{line}");
    }

    /// The command tells of a refusal on standard output.
    fn refuses(&self, line: &str, stdout: &str) {
        assert_eq!(self.run(line), (1, stdout.into(), "".into()), "{line}");
    }

    /// The command fails with this message.
    fn fails(&self, line: &str, message: &str) {
        assert_eq!(self.run(line), (1, "".into(), format!("cellfacet: {message}\n")), "{line}");
    }
}

/// Case A with some bytes replaced.
fn with(place: usize, bytes: &[u8]) -> Vec<u8> {
    let mut changed = CASE_A.to_vec();
    changed[place..place + bytes.len()].copy_from_slice(bytes);
    changed
}

/// Case A with a slot emptied.
fn emptied(slot: usize) -> Vec<u8> {
    with(SLOTS[slot], &[0; 65])
}

#[test]
fn entries() {
    let folder = Folder::new("entries");
    folder.says("entries a", "1 46 100\n2 150 92\n7 254 138\n");
    folder.refuses("entries damaged", "6 238\n");
    folder.refuses("entries empty", "2 0\n");
    folder.refuses("entries long", "1 0\n");
}

#[test]
fn check() {
    let folder = Folder::new("check");
    folder.says("check a", "0 at 392: accepted\n");
    folder.says("check blank", "0 at 392: accepted\n");
    folder.refuses("check damaged", "6 at 238: list is out of order\n");
    folder.refuses("check empty", "2 at 0: field is cut short\n");
    folder.refuses("check long", "1 at 0: more than 65,536 bytes\n");
}

#[test]
fn slots() {
    let folder = Folder::new("slots");
    let line = |first, second| format!("credential 0: slot 0 {first}, slot 1 {second}\n");
    folder.says("slots a", &(line("filled", "filled") + "2 of 2 slots filled\n"));
    folder.says("slots first", &(line("filled", "empty") + "1 of 2 slots filled\n"));
    folder.says("slots second", &(line("empty", "filled") + "1 of 2 slots filled\n"));
    folder.says("slots blank", &(line("empty", "empty") + "0 of 2 slots filled\n"));
    folder.refuses("slots damaged", "6 at 238: list is out of order\n");
    folder.refuses("slots empty", "2 at 0: field is cut short\n");
    folder.refuses("slots long", "1 at 0: more than 65,536 bytes\n");
}

#[test]
fn a_credential_without_a_slot_and_no_credential() {
    let folder = Folder::new("no-slot");
    // The input's indices, then the credential's signatures, left out.
    let no_index = [&CASE_A[..230], &[0; 4], &CASE_A[242..258], &[0; 4]].concat();
    folder.put("no-index", &no_index);
    folder.says("slots no-index", "credential 0: no slot\n0 of 0 slots filled\n");
    folder.put("no-input", &[0; 58]);
    folder.says("slots no-input", "0 of 0 slots filled\n");
    folder.says("entries no-input", "");
}

#[test]
fn what_cannot_be_read() {
    let folder = Folder::new("unreadable");
    for command in ["entries", "check", "slots", "merge out"] {
        let missing = "missing: No such file or directory (os error 2)";
        folder.fails(&format!("{command} missing"), missing);
        folder.fails(&format!("{command} folder"), "folder: Is a directory (os error 21)");
    }
    assert!(!folder.0.join("out").exists());
}

#[test]
fn usage() {
    let folder = Folder::new("usage");
    let (status, help, errors) = folder.run("help");
    assert_eq!((status, errors), (0, "".into()));
    for command in ["entries FILE", "check FILE", "slots FILE", "merge OUT FILE FILE..", "help"]
    {
        assert!(help.contains(&format!("\n  {command} ")), "{command}");
    }
    for line in ["", "entries", "entries a a", "check", "slots", "merge", "merge out", "help a"]
    {
        assert_eq!(folder.run(line), (2, "".into(), help.clone()), "{line}");
    }
    assert_eq!(folder.run("fill a"), (2, "".into(), help));
}

#[cfg(target_os = "linux")]
#[test]
fn what_cannot_be_printed_is_no_success() {
    let folder = Folder::new("unprinted");
    let full = fs::File::create("/dev/full").expect("a device that is full");
    let mut command = Command::new(env!("CARGO_BIN_EXE_cellfacet"));
    command.args(["check", "a"]).current_dir(&folder.0).stdout(full);
    let output = command.output().expect("the command runs");
    let message = "cellfacet: standard output: No space left on device (os error 28)\n";
    assert_eq!((output.status.code(), &output.stderr[..]), (Some(1), message.as_bytes()));
}

#[test]
fn merge_in_any_order() {
    let folder = Folder::new("merge");
    let names = ["first", "second", "blank"];
    for (i, j, k) in [(0, 1, 2), (0, 2, 1), (1, 0, 2), (1, 2, 0), (2, 0, 1), (2, 1, 0)] {
        let line = format!("merge out {} {} {}", names[i], names[j], names[k]);
        folder.says(&line, "out: 392 bytes, 2 of 2 slots filled\n");
        assert_eq!(folder.get("out"), CASE_A, "{line}");
        fs::remove_file(folder.0.join("out")).expect("out is there");
    }
    folder.says("merge out blank first blank first", "out: 392 bytes, 1 of 2 slots filled\n");
    assert_eq!(folder.get("out"), emptied(1));
}

#[test]
fn merge_of_one_file_copies_it() {
    let folder = Folder::new("merge-one");
    folder.says("merge out first", "out: 392 bytes, 1 of 2 slots filled\n");
    assert_eq!(folder.get("out"), emptied(1));
}

#[test]
fn merge_into_one_of_its_files() {
    let folder = Folder::new("merge-over");
    let before = folder.names();
    folder.says("merge first first second", "first: 392 bytes, 2 of 2 slots filled\n");
    assert_eq!(folder.get("first"), CASE_A);
    assert_eq!(folder.names(), before, "nothing else is left");
}

#[test]
fn a_refused_merge_leaves_the_file() {
    let folder = Folder::new("merge-refused");
    folder.put("out", b"kept");
    let before = folder.names();
    let order = "damaged is not accepted: 6 at 238: list is out of order";
    folder.fails("merge out damaged", order);
    folder.fails("merge out first second damaged", order);
    folder.fails("merge out empty a", "empty is not accepted: 2 at 0: field is cut short");
    folder.fails("merge out a long", "long is not accepted: 1 at 0: more than 65,536 bytes");
    folder.fails("merge out a missing", "missing: No such file or directory (os error 2)");
    let differ = "19 at 0: drafts are of different unsigned transactions: a and another";
    folder.fails("merge out a blank another", differ);
    let conflict =
        |one, two| format!("20 at 1: slot 1 holds different signatures in {one} and {two}");
    folder.fails("merge out a other", &conflict("a", "other"));
    folder.fails("merge out blank other first second", &conflict("other", "second"));
    folder.fails("merge out second blank first other", &conflict("second", "other"));
    assert_eq!(folder.get("out"), b"kept");
    assert_eq!(folder.names(), before, "nothing else is left");
}

#[test]
fn merge_to_what_cannot_be_written() {
    let folder = Folder::new("merge-unwritable");
    let before = folder.names();
    folder.fails("merge folder a", "folder: not a regular file");
    folder.fails("merge /dev/null a", "/dev/null: not a regular file");
    folder.fails("merge none/out a", "none/out: No such file or directory (os error 2)");
    folder.fails("merge a/out a", "a/out: Not a directory (os error 20)");
    assert_eq!(folder.names(), before, "nothing else is left");
}

/// A limit on the size of files ends the command when it writes.
#[cfg(unix)]
#[test]
fn a_crash_while_writing_leaves_the_file() {
    let folder = Folder::new("merge-crash");
    folder.put("out", b"kept");
    let line = "ulimit -f 0 && exec \"$0\" merge out first second";
    let mut shell = Command::new("sh");
    shell.args(["-c", line, env!("CARGO_BIN_EXE_cellfacet")]).current_dir(&folder.0);
    let output = shell.output().expect("a shell");
    assert_eq!(output.status.code(), None, "ended by a signal");
    assert_eq!(folder.get("out"), b"kept");
    folder.says("merge out first second", "out: 392 bytes, 2 of 2 slots filled\n");
    assert_eq!(folder.get("out"), CASE_A);
}

#[cfg(unix)]
#[test]
fn merge_keeps_permissions_and_follows_links() {
    use std::os::unix::fs::{symlink, PermissionsExt};
    let folder = Folder::new("merge-link");
    folder.put("out", b"old");
    let file = folder.0.join("out");
    fs::set_permissions(&file, fs::Permissions::from_mode(0o600)).expect("permissions");
    symlink("out", folder.0.join("link")).expect("a link");
    folder.says("merge link first second", "link: 392 bytes, 2 of 2 slots filled\n");
    assert_eq!(folder.get("out"), CASE_A);
    assert_eq!(fs::metadata(file).expect("out").permissions().mode() & 0o777, 0o600);
    let link = fs::symlink_metadata(folder.0.join("link")).expect("the link");
    assert!(link.file_type().is_symlink());
}
