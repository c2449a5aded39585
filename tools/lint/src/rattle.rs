//! The code in `.rt` files: its names, its contracts and its imports.

use crate::scope::{import, uses, Import, Use};
use crate::tokens::tokens;

/// A file of code.
#[derive(Default)]
pub struct Code {
    /// Words and signs of the code; comments, texts, contracts, ghost items and ghost imports are left out.
    pub words: Vec<Word>,
    /// What the contracts and the ghost items use.
    pub contracts: Vec<Use>,
    /// The ghost imports.
    pub ghosts: Vec<Import>,
    /// What the attributes give to the tactics, as `crate::proofs::Runs::law`.
    pub laws: Vec<Vec<String>>,
}

/// A word or a sign of code; `::` is one sign.
#[derive(Clone, Debug)]
pub struct Word {
    /// As it is spelled.
    pub text: String,
    /// The line, from 1.
    pub line: usize,
}

/// Reads a file.
pub fn read(text: &str) -> Code {
    let plain = without_comments(text);
    let all = words(&plain);
    let mut code = Code::default();
    let mut i = 0;
    // What stands behind the word at `open` and before the one at `end`.
    let inside = |open: usize, end: usize| {
        let (from, word) = &all[open];
        let to = all.get(end).map_or(plain.len(), |(at, _)| *at);
        tokens(&plain[from + word.text.len()..to], word.line)
    };
    while i < all.len() {
        let word = &all[i].1;
        if word.text == "ghost" && is(&all, i + 1, "use") {
            let end = semicolon(&all, i);
            code.ghosts.extend(import(&inside(i, end), 0).0);
            i = end + 1;
            continue;
        }
        let groups = groups(&all, i);
        for &(open, end) in &groups {
            let inside = inside(open, end);
            code.contracts.extend(uses(&inside, 0..inside.len()));
        }
        if let Some((_, end)) = groups.last() {
            i = end + 1;
            continue;
        }
        if word.text == "tactic" && i > 0 && is(&all, i - 1, "[") {
            code.laws.extend(cited(&all[i..]));
        }
        code.words.push(word.clone());
        i += 1;
    }
    code
}

fn is(words: &[(usize, Word)], at: usize, text: &str) -> bool {
    words.get(at).is_some_and(|(_, word)| word.text == text)
}

// The braces of a clause, `ensures name { .. }` or `requires* { .. }`, or those of a ghost item,
// `ghost name: { .. } = { .. } by { .. }`, that begins at `at`.
fn groups(words: &[(usize, Word)], at: usize) -> Vec<(usize, usize)> {
    let mut found = Vec::new();
    match words[at].1.text.as_str() {
        "ensures" | "requires" => {
            let starred = at + 1 + usize::from(is(words, at + 1, "*"));
            let open = starred + usize::from(!is(words, starred, "{"));
            if is(words, open, "{") {
                found.push((open, closing(words, open)));
            }
        }
        "ghost" => {
            let mut next = at + 2;
            while [":", "=", "by"].iter().any(|sign| is(words, next, sign))
                && is(words, next + 1, "{")
            {
                let end = closing(words, next + 1);
                found.push((next + 1, end));
                next = end + 1;
            }
        }
        _ => {}
    }
    found
}

// The definitions and lemmas that an attribute, whose words these are, names by their paths.
fn cited(words: &[(usize, Word)]) -> Vec<Vec<String>> {
    let own = words.iter().take_while(|(_, word)| word.text != "]");
    let own: Vec<Word> = own.map(|(_, word)| word.clone()).collect();
    let antt = |path: &Vec<String>| path.get(1).is_some_and(|m| m == "proofs" || m == "specs");
    paths(&own).into_iter().filter(antt).collect()
}

fn closing(words: &[(usize, Word)], open: usize) -> usize {
    let mut depth = 0;
    for (i, (_, word)) in words.iter().enumerate().skip(open) {
        depth += i32::from(word.text == "{") - i32::from(word.text == "}");
        if depth == 0 {
            return i;
        }
    }
    words.len()
}

fn semicolon(words: &[(usize, Word)], from: usize) -> usize {
    let later = words.iter().skip(from).position(|(_, word)| word.text == ";");
    later.map_or(words.len(), |after| from + after)
}

// The text with comments and quoted texts as spaces, each line and place as before.
fn without_comments(text: &str) -> String {
    let mut plain = String::with_capacity(text.len());
    let mut rest = text;
    while let Some(c) = rest.chars().next() {
        let skipped = match () {
            _ if rest.starts_with("//") => rest.find('\n').unwrap_or(rest.len()),
            _ if rest.starts_with("/*") => rest.find("*/").map_or(rest.len(), |end| end + 2),
            _ if rest.starts_with("'\"'") => 3,
            _ if c == '"' => quoted(rest),
            _ => 0,
        };
        let blank =
            |c: char| if c == '\n' { "\n".to_string() } else { " ".repeat(c.len_utf8()) };
        plain.extend(rest[..skipped].chars().map(blank));
        if skipped == 0 {
            plain.push(c);
        }
        rest = &rest[if skipped == 0 { c.len_utf8() } else { skipped }..];
    }
    plain
}

fn quoted(text: &str) -> usize {
    let mut escaped = false;
    for (at, c) in text.char_indices().skip(1) {
        if c == '"' && !escaped {
            return at + 1;
        }
        escaped = c == '\\' && !escaped;
    }
    text.len()
}

fn is_part(c: char) -> bool {
    c.is_alphanumeric() || c == '_'
}

// Words and signs with their places.
fn words(text: &str) -> Vec<(usize, Word)> {
    let mut found = Vec::new();
    let (mut at, mut line) = (0, 1);
    while let Some(c) = text[at..].chars().next() {
        let rest = &text[at..];
        let length = match () {
            _ if is_part(c) => rest.find(|c| !is_part(c)).unwrap_or(rest.len()),
            _ if rest.starts_with("::") => 2,
            _ => c.len_utf8(),
        };
        line += usize::from(c == '\n');
        if !c.is_whitespace() {
            found.push((at, Word { text: rest[..length].to_string(), line }));
        }
        at += length;
    }
    found
}

/// A `use` of code.
pub struct CodeImport {
    /// The path, the item's name last.
    pub path: Vec<String>,
    /// The name that it has here.
    pub local: String,
    /// Others get it from here.
    pub passed_on: bool,
    /// The line of the name.
    pub line: usize,
}

/// The imports of code, and the words that are not part of one.
pub fn imports(words: &[Word]) -> (Vec<CodeImport>, Vec<Word>) {
    let mut found = Vec::new();
    let mut others = Vec::new();
    let mut i = 0;
    while i < words.len() {
        if words[i].text != "use" {
            others.push(words[i].clone());
            i += 1;
            continue;
        }
        let passed_on = i > 0 && matches!(words[i - 1].text.as_str(), "pub" | ")");
        let end = words[i..].iter().position(|w| w.text == ";").map_or(words.len(), |n| i + n);
        branch(&words[i + 1..end], &[], passed_on, &mut found);
        i = end + 1;
    }
    (found, others)
}

// A path, or a path and a group in braces, whose branches are read alike.
fn branch(words: &[Word], before: &[String], passed_on: bool, found: &mut Vec<CodeImport>) {
    let Some(first) = words.first() else { return };
    let open = words.iter().position(|w| w.text == "{");
    let names = &words[..open.unwrap_or(words.len())];
    let renamed = names.iter().position(|w| w.text == "as");
    let path: Vec<String> = (before.iter().cloned())
        .chain(
            names[..renamed.unwrap_or(names.len())]
                .iter()
                .map(|w| w.text.clone())
                .filter(|w| w != "::"),
        )
        .collect();
    if let Some(open) = open {
        for part in parts(&words[open + 1..words.len() - 1]) {
            branch(part, &path, passed_on, found);
        }
        return;
    }
    let local = renamed.and_then(|at| names.get(at + 1)).map(|w| w.text.clone());
    let local = local.or_else(|| path.last().cloned()).unwrap_or_default();
    found.push(CodeImport { path, local, passed_on, line: first.line });
}

// Split at the commas that stand in no inner braces.
fn parts(words: &[Word]) -> Vec<&[Word]> {
    let mut depth = 0;
    words
        .split(|w| {
            depth += i32::from(w.text == "{") - i32::from(w.text == "}");
            depth == 0 && w.text == ","
        })
        .collect()
}

// Behind one dot; behind two it is the end of a range.
fn is_field(words: &[Word], at: usize) -> bool {
    let dot = |i: Option<usize>| i.is_some_and(|i| words[i].text == ".");
    dot(at.checked_sub(1)) && !dot(at.checked_sub(2))
}

/// The paths `a::b::c` of code; a field behind a dot begins none.
pub fn paths(words: &[Word]) -> Vec<Vec<String>> {
    let is_word = |i: usize| words.get(i).is_some_and(|w| w.text.starts_with(is_part));
    let mut found = Vec::new();
    let mut i = 0;
    while i < words.len() {
        if !is_word(i) || is_field(words, i) {
            i += 1;
            continue;
        }
        let mut path = vec![words[i].text.clone()];
        i += 1;
        while words.get(i).is_some_and(|w| w.text == "::") && is_word(i + 1) {
            path.push(words[i + 1].text.clone());
            i += 2;
        }
        found.push(path);
    }
    found
}
