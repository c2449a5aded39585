//! The operator's command. It reads and writes files; the proved code says what their bytes mean.

mod draft;
mod file;

use std::env;
use std::ffi::OsString;
use std::io::{self, Write};
use std::path::Path;
use std::process::ExitCode;

use cellfacet::{Kind, Slot};

const HELP: &str = "\
usage: cellfacet COMMAND ..

  entries FILE          the entries of a signed transaction, one per line: kind, start, length;
                        kinds: 1 output, 2 input, 3 operation, 4 imported input,
                        5 exported output, 6 initial-state output, 7 credential;
                        a refusal is one line: number, place
  check FILE            the answer of the check: number and place, and what is wrong; 0 is
                        accepted, with the transaction's length in bytes as its place
  slots FILE            which slots (65 bytes for one signature each) are filled or empty
  merge OUT FILE FILE.. merges copies of one transaction, in any order, and writes the result
                        to OUT, whole or not at all; a single FILE is checked and copied
  help                  this text

A place is a byte offset in the file, or for refusal 20 the number of a slot.

The exit status is 0 if everything is accepted and done, 1 if something is refused or fails,
2 if the command line is none of these.
";

/// What goes to standard output, and whether all is accepted and done.
struct Said {
    text: String,
    done: bool,
}

/// Why there is nothing to say on standard output.
enum Trouble {
    /// The command line is none of the usages.
    Usage,
    /// What failed or was refused.
    Message(String),
}

impl From<String> for Trouble {
    fn from(message: String) -> Trouble {
        Trouble::Message(message)
    }
}

fn main() -> ExitCode {
    let words: Vec<OsString> = env::args_os().skip(1).collect();
    match run(&words).and_then(print) {
        Ok(true) => ExitCode::SUCCESS,
        Ok(false) => ExitCode::FAILURE,
        Err(Trouble::Usage) => {
            eprint!("{HELP}");
            ExitCode::from(2)
        }
        Err(Trouble::Message(message)) => {
            eprintln!("cellfacet: {message}");
            ExitCode::FAILURE
        }
    }
}

fn run(words: &[OsString]) -> Result<Said, Trouble> {
    let Some((command, rest)) = words.split_first() else {
        return Err(Trouble::Usage);
    };
    match (command.to_str(), rest) {
        (Some("entries"), [file]) => entries(file.as_ref()),
        (Some("check"), [file]) => check(file.as_ref()),
        (Some("slots"), [file]) => slots(file.as_ref()),
        (Some("merge"), [out, files @ ..]) if !files.is_empty() => merge(out.as_ref(), files),
        (Some("help" | "--help" | "-h"), []) => Ok(Said { text: HELP.into(), done: true }),
        _ => Err(Trouble::Usage),
    }
}

fn print(said: Said) -> Result<bool, Trouble> {
    let mut output = io::stdout().lock();
    let printed = output.write_all(said.text.as_bytes()).and_then(|()| output.flush());
    printed.map_err(|error| format!("standard output: {error}"))?;
    Ok(said.done)
}

fn entries(path: &Path) -> Result<Said, Trouble> {
    let bytes = file::read(path)?;
    let mut table = vec![0; cellfacet::TABLE_NUMBERS];
    match cellfacet::rows(&bytes, &mut table) {
        Err(refusal) => {
            let text = format!("{} {}\n", refusal.reason.number(), refusal.place);
            Ok(Said { text, done: false })
        }
        Ok(count) => {
            let rows = table.chunks_exact(3).take(count);
            let text = rows.map(|row| format!("{} {} {}\n", row[0], row[1], row[2])).collect();
            Ok(Said { text, done: true })
        }
    }
}

fn check(path: &Path) -> Result<Said, Trouble> {
    let bytes = file::read(path)?;
    Ok(match cellfacet::check(&bytes) {
        Ok(length) => Said { text: format!("0 at {length}: accepted\n"), done: true },
        Err(refusal) => Said { text: format!("{refusal}\n"), done: false },
    })
}

fn slots(path: &Path) -> Result<Said, Trouble> {
    let bytes = file::read(path)?;
    let read = cellfacet::entries(&bytes).and_then(|e| Ok((e, cellfacet::slots(&bytes)?)));
    Ok(match read {
        Err(refusal) => Said { text: format!("{refusal}\n"), done: false },
        Ok((entries, slots)) => {
            let credentials = entries.iter().filter(|entry| entry.kind == Kind::Credential);
            let lines = (0..credentials.count()).map(|credential| line(credential, &slots));
            Said { text: lines.collect::<String>() + &count(&slots) + "\n", done: true }
        }
    })
}

/// The slots of a credential.
fn line(credential: usize, slots: &[Slot]) -> String {
    let own = slots.iter().enumerate().filter(|(_, slot)| slot.credential == credential);
    let state = |filled| if filled { "filled" } else { "empty" };
    let shown: Vec<String> =
        own.map(|(number, slot)| format!("slot {number} {}", state(slot.filled))).collect();
    match shown[..] {
        [] => format!("credential {credential}: no slot\n"),
        _ => format!("credential {credential}: {}\n", shown.join(", ")),
    }
}

fn count(slots: &[Slot]) -> String {
    let filled = slots.iter().filter(|slot| slot.filled).count();
    format!("{filled} of {} slots filled", slots.len())
}

fn merge(out: &Path, files: &[OsString]) -> Result<Said, Trouble> {
    let merged = draft::merged(files)?;
    let slots = cellfacet::slots(&merged).map_err(|refusal| format!("the merge: {refusal}"))?;
    file::replace(out, &merged).map_err(|error| format!("{}: {error}", out.display()))?;
    let text = format!("{}: {} bytes, {}\n", out.display(), merged.len(), count(&slots));
    Ok(Said { text, done: true })
}
