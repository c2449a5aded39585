//! Imports that nothing uses.

use crate::definitions;
use crate::edits::uses_by_file;
use crate::rattle;
use crate::scope::{means, Import, Use};
use crate::tree::Tree;
use crate::Finding;

/// The unused imports of all files.
pub fn findings(tree: &Tree) -> Vec<Finding> {
    let edits = uses_by_file(tree);
    let none = Vec::new();
    let mut found = Vec::new();
    for (file, text) in tree.with("antt") {
        let put = edits.get(file).unwrap_or(&none);
        found.extend(
            unused_in_definitions(text, put)
                .into_iter()
                .map(|(line, name)| finding(file, line, &name)),
        );
    }
    for (file, text) in tree.with("rt") {
        let put = edits.get(file).unwrap_or(&none);
        found.extend(
            unused_in_code(text, put)
                .into_iter()
                .map(|(line, name)| finding(file, line, &name)),
        );
    }
    found
}

fn finding(file: &str, line: usize, name: &str) -> Finding {
    Finding { file: file.to_string(), line, what: format!("import {name} is not used") }
}

/// Line and name of each unused import of a `.antt` file; `put` is used too.
pub fn unused_in_definitions(text: &str, put: &[Use]) -> Vec<(usize, String)> {
    let file = definitions::read(text);
    let used: Vec<&Use> = file.uses().chain(put).collect();
    unused(&file.imports, &used)
}

/// Line and name of each unused import of a `.rt` file; `put` is used too.
pub fn unused_in_code(text: &str, put: &[Use]) -> Vec<(usize, String)> {
    let code = rattle::read(text);
    let used: Vec<&Use> = code.contracts.iter().chain(put).collect();
    let mut found = unused(&code.ghosts, &used);
    let (imports, words) = rattle::imports(&code.words);
    let paths = rattle::paths(&words);
    for import in imports {
        let named = paths.iter().any(|path| path[0] == import.local)
            || used.iter().any(|used| used.head == import.local);
        if !named && !import.passed_on {
            found.push((import.line, import.local));
        }
    }
    found
}

fn unused(imports: &[Import], used: &[&Use]) -> Vec<(usize, String)> {
    let heads: Vec<&str> = imports.iter().map(|import| import.path[0].as_str()).collect();
    let idle = |import: &&Import| {
        let used_here = match import.module {
            true => used.iter().any(|u| u.head == import.local && !u.rest.is_empty()),
            false => used.iter().any(|u| means(&u.head, &import.local)),
        };
        let begins_another = import.module && heads.contains(&import.local.as_str());
        !import.passed_on && !used_here && !begins_another
    };
    imports.iter().filter(idle).map(|import| (import.line, import.local.clone())).collect()
}
