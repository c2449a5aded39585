//! Lines that are too long to read beside others.

use crate::tree::Tree;
use crate::Finding;

/// Characters that a line may have.
pub const MOST: usize = 160;

/// The longer lines of code, definitions and proofs.
pub fn findings(tree: &Tree) -> Vec<Finding> {
    let mut found = Vec::new();
    for (file, text) in tree.with("antt").chain(tree.with("rt")) {
        for (at, line) in text.lines().enumerate() {
            let count = line.chars().count();
            if count > MOST {
                let what = format!("{count} characters in a line, more than {MOST}");
                found.push(Finding { file: file.to_string(), line: at + 1, what });
            }
        }
    }
    found
}
