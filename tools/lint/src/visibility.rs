//! `pub` items of code that no other crate uses.

use crate::dead::code_spans;
use crate::definitions;
use crate::rattle::{self, CodeImport, Word};
use crate::scope::in_crate;
use crate::tree::Tree;
use crate::Finding;
use std::collections::BTreeSet;

/// An item that is `pub`.
#[derive(Debug)]
pub struct Item {
    /// `fn`, `const`, `struct`, `enum` or `mod`.
    pub kind: String,
    /// Its name.
    pub name: String,
    /// Its line.
    pub line: usize,
    /// The words that tell its type: a signature, or fields and variants.
    pub interface: Vec<String>,
}

struct Source<'a> {
    file: &'a str,
    krate: &'a str,
    // The module, empty for the crate's root.
    module: &'a str,
    imports: Vec<CodeImport>,
    words: Vec<Word>,
}

/// The `pub` items that could be private or `pub(crate)`.
pub fn findings(tree: &Tree) -> Vec<Finding> {
    let sources: Vec<Source> =
        tree.with("rt").filter_map(|(file, text)| source(file, text)).collect();
    let crates: BTreeSet<&str> = sources.iter().map(|s| s.krate).collect();
    let mut used = used_types(tree);
    used.extend(sources.iter().flat_map(|s| used_paths(s, &crates)));
    let offered = offered(tree);
    let mut found = Vec::new();
    for source in sources.iter().filter(|s| !is_private(s, &sources)) {
        for item in items(&source.words) {
            let path = join(source.krate, &[source.module, &item.name]);
            let named =
                used.contains(&path) || used.contains(&join(source.krate, &["", &item.name]));
            if !named
                && !offered.contains(&item.name)
                && !in_interface(source.krate, &item, &sources)
            {
                let what = format!("pub {} {} is used by no other crate", item.kind, item.name);
                found.push(Finding { file: source.file.to_string(), line: item.line, what });
            }
        }
    }
    found
}

fn source<'a>(file: &'a str, text: &str) -> Option<Source<'a>> {
    let (krate, module) = file.strip_prefix("crates/")?.split_once("/src/")?;
    let module =
        module.strip_suffix(".rt").filter(|m| *m != "lib" && *m != "main").unwrap_or("");
    let (imports, words) = rattle::imports(&rattle::read(text).words);
    Some(Source { file, krate, module, imports, words })
}

fn join(krate: &str, parts: &[&str]) -> String {
    let parts = parts.iter().filter(|part| !part.is_empty());
    parts.fold(krate.to_string(), |path, part| format!("{path}::{part}"))
}

// Is it in a module that the crate does not open?
fn is_private(source: &Source, sources: &[Source]) -> bool {
    let root = sources.iter().find(|s| s.krate == source.krate && s.module.is_empty());
    let opened = root.is_some_and(|root| {
        items(&root.words).iter().any(|item| item.kind == "mod" && item.name == source.module)
    });
    !source.module.is_empty() && !opened
}

// Every path into another crate, with each path that it begins with.
fn used_paths(source: &Source, crates: &BTreeSet<&str>) -> Vec<String> {
    let mut paths: Vec<Vec<String>> = source.imports.iter().map(|i| i.path.clone()).collect();
    for path in rattle::paths(&source.words) {
        let brought = source.imports.iter().find(|import| import.local == path[0]);
        let begin = brought.map_or(&path[..1], |import| &import.path);
        paths.push(begin.iter().chain(&path[1..]).cloned().collect());
    }
    let outside =
        |path: &&Vec<String>| path[0] != source.krate && crates.contains(path[0].as_str());
    let prefixes =
        |path: &Vec<String>| (2..=path.len()).map(|n| path[..n].join("::")).collect::<Vec<_>>();
    paths.iter().filter(outside).flat_map(prefixes).collect()
}

// Types that definitions and proofs of other crates name, as `Rattle.wire.specs.declared.Part`, or of a
// module as `Rattle.wire.specs.declared.parts.Part`.
fn used_types(tree: &Tree) -> BTreeSet<String> {
    let mut found = BTreeSet::new();
    let antt = tree.with("antt").map(|(file, text)| (file, definitions::read(text).imports));
    let ghosts = tree.with("rt").map(|(file, text)| (file, rattle::read(text).ghosts));
    for (file, imports) in antt.chain(ghosts) {
        for import in imports {
            let path: Vec<&str> = import.path.iter().map(String::as_str).collect();
            let Some((krate, ["specs", "declared", names @ ..])) = in_crate(&path) else {
                continue;
            };
            if !file.starts_with(&format!("crates/{krate}/")) {
                found.extend((1..=names.len()).map(|n| join(krate, &names[..n])));
            }
        }
    }
    found
}

// The names in the list of calls that users are offered.
fn offered(tree: &Tree) -> BTreeSet<String> {
    let page = tree.texts.get("docs/DECISIONS.md").map_or("", String::as_str);
    let section = page.split_once("### What is a public call").map_or("", |(_, after)| after);
    let section = section.split("\n### ").next().unwrap_or_default();
    code_spans(section).map(str::to_string).collect()
}

// Does another pub item of the crate name this type?
fn in_interface(krate: &str, item: &Item, sources: &[Source]) -> bool {
    let is_type = item.kind == "struct" || item.kind == "enum";
    let names = |other: &Item| other.name != item.name && other.interface.contains(&item.name);
    is_type
        && sources
            .iter()
            .filter(|s| s.krate == krate)
            .any(|s| items(&s.words).iter().any(names))
}

/// The `pub` items of a file; methods and what is exported to C are left out.
pub fn items(words: &[Word]) -> Vec<Item> {
    let mut found = Vec::new();
    let mut depth = 0;
    for (at, word) in words.iter().enumerate() {
        depth += i32::from(word.text == "{") - i32::from(word.text == "}");
        let [kind, name, ..] = &words[at + 1..] else { continue };
        let declares = ["fn", "const", "struct", "enum", "mod"].contains(&kind.text.as_str());
        if depth == 0 && word.text == "pub" && declares {
            let interface = interface(&words[at + 1..]);
            let (kind, name, line) = (kind.text.clone(), name.text.clone(), name.line);
            found.push(Item { kind, name, line, interface });
        }
    }
    found
}

// Up to the body of a function, or the end of a type or constant.
fn interface(words: &[Word]) -> Vec<String> {
    let function = words[0].text == "fn";
    let mut depth = 0;
    let mut found = Vec::new();
    for word in words {
        depth += i32::from("{([".contains(&word.text)) - i32::from("})]".contains(&word.text));
        let body = function && word.text == "{";
        let ends = depth == 0 && (word.text == ";" || word.text == "}");
        if body || ends {
            break;
        }
        found.push(word.text.clone());
    }
    found
}
