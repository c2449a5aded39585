//! What the edits of `must-fail` put into a file: a name that only an edit uses is used.

use crate::rattle;
use crate::scope::{uses, Use};
use crate::tokens::tokens;
use crate::tree::Tree;
use std::collections::BTreeMap;

/// The names that edits use, by the file that they change. An edit may have several `new:` lines, each
/// for the file that is named above it.
pub fn uses_by_file(tree: &Tree) -> BTreeMap<String, Vec<Use>> {
    let mut found: BTreeMap<String, Vec<Use>> = BTreeMap::new();
    for (name, text) in tree.with("edit") {
        let Some((folder, _)) = name.split_once("/must-fail/") else { continue };
        let mut file = None;
        for line in text.lines() {
            if let Some(path) = line.strip_prefix("file:") {
                file = Some(format!("{folder}/{}", path.trim()));
            } else if let (Some(new), Some(file)) = (line.strip_prefix("new:"), &file) {
                found.entry(file.clone()).or_default().extend(put(file, new));
            }
        }
    }
    found
}

// The names of a line: in a contract they are those of definitions, in code they begin paths too.
fn put(file: &str, new: &str) -> Vec<Use> {
    let line = tokens(new, 1);
    let mut used = uses(&line, 0..line.len());
    if file.ends_with(".rt") {
        let heads = rattle::paths(&rattle::read(new).words).into_iter();
        used.extend(heads.map(|path| Use { head: path[0].clone(), rest: Vec::new() }));
    }
    used
}
