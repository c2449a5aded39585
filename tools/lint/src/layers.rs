//! Definitions that name what only mirrors code.

use crate::definitions;
use crate::scope::is_in_code;
use crate::tree::Tree;
use crate::Finding;

/// The imports of `specs/code` in files of `specs` that are not below it, and the names written there by
/// their whole path: what must be believed rests on nothing there.
pub fn findings(tree: &Tree) -> Vec<Finding> {
    let mut found = Vec::new();
    for (file, text) in tree.with("antt").filter(|(file, _)| is_believed(file)) {
        let read = definitions::read(text);
        let mut tell =
            |line, what: String| found.push(Finding { file: file.to_string(), line, what });
        for import in &read.imports {
            let path: Vec<&str> = import.path.iter().map(String::as_str).collect();
            if is_in_code(&path) {
                tell(import.line, format!("import {} is of specs/code", import.local));
            }
        }
        for declaration in &read.declarations {
            for used in declaration.uses.iter().filter(|used| is_in_code(&used.path())) {
                tell(declaration.line, format!("{} is of specs/code", used.path().join(".")));
            }
        }
    }
    found
}

fn is_believed(file: &str) -> bool {
    let below = file.strip_prefix("crates/").and_then(|path| path.split_once('/'));
    below
        .is_some_and(|(_, path)| path.starts_with("specs/") && !path.starts_with("specs/code/"))
}
