//! Imports of a text of definitions or contracts, and the names that it uses.

use crate::tokens::Token;
use std::ops::Range;

/// What a `use` line brings: an item of a module, or the module.
#[derive(Clone, Debug)]
pub struct Import {
    /// The module's path, and behind it the item's name.
    pub path: Vec<String>,
    /// Is it the module itself?
    pub module: bool,
    /// The name that it has here.
    pub local: String,
    /// Others get it from here (`pub use`).
    pub passed_on: bool,
    /// The line of the name.
    pub line: usize,
}

/// A name that is used, with the names behind it in `X.a.b`.
#[derive(Clone, Debug)]
pub struct Use {
    /// The first name.
    pub head: String,
    /// The names behind it.
    pub rest: Vec<String>,
}

impl Use {
    /// Its names.
    pub fn path(&self) -> Vec<&str> {
        std::iter::once(&self.head).chain(&self.rest).map(String::as_str).collect()
    }
}

impl Import {
    /// The path that a use through this import names.
    pub fn named<'a>(&'a self, used: &'a Use) -> Option<Vec<&'a str>> {
        let path = self.path.iter().map(String::as_str);
        match self.module {
            true if self.local == used.head => {
                Some(path.chain(used.rest.iter().map(String::as_str)).collect())
            }
            false if means(&used.head, &self.local) => Some(path.collect()),
            _ => None,
        }
    }
}

/// The crate and what stands behind it in a path such as `Rattle.wire.specs.Bytes.value`.
pub fn in_crate<'a, 'b>(path: &'b [&'a str]) -> Option<(&'a str, &'b [&'a str])> {
    match path {
        ["Rattle", name, rest @ ..] => Some((name, rest)),
        _ => None,
    }
}

/// Does a path lead into `specs/code` of a crate?
pub fn is_in_code(path: &[&str]) -> bool {
    in_crate(path).is_some_and(|(_, rest)| rest.starts_with(&["specs", "code"]))
}

/// The names that a `use` statement at `at` brings, and the place behind it.
pub fn import(tokens: &[Token], at: usize) -> (Vec<Import>, usize) {
    let passed_on = tokens[..at].last().is_some_and(|t| t.is("pub") && !tokens[at].first);
    let (path, mut i) = path(tokens, at + 1);
    let line = tokens[at].line;
    if tokens.get(i).is_some_and(|t| t.is(".")) && tokens.get(i + 1).is_some_and(|t| t.is("{"))
    {
        let mut found = Vec::new();
        i += 2;
        while i < tokens.len() && !tokens[i].is("}") {
            let line = tokens[i].line;
            let (item, next) = self::path(tokens, i);
            let (local, next) = renamed(tokens, next, &item);
            let path = path.iter().chain(&item).cloned().collect();
            found.push(Import { path, module: false, local, passed_on, line });
            i = next.max(i + 1);
            i += usize::from(tokens.get(i).is_some_and(|t| t.is(",")));
        }
        return (found, i + 1);
    }
    let (local, i) = renamed(tokens, i, &path);
    (vec![Import { path, module: true, local, passed_on, line }], i)
}

// The names joined by dots from `at` on, and the place behind them.
fn path(tokens: &[Token], at: usize) -> (Vec<String>, usize) {
    let mut names = Vec::new();
    let mut i = at;
    while i < tokens.len() && tokens[i].is_name() {
        names.push(tokens[i].text.clone());
        i += 1;
        let goes_on = i + 1 < tokens.len()
            && tokens[i].is(".")
            && tokens[i].joined
            && tokens[i + 1].joined
            && tokens[i + 1].is_name();
        if !goes_on {
            break;
        }
        i += 1;
    }
    (names, i)
}

fn renamed(tokens: &[Token], at: usize, path: &[String]) -> (String, usize) {
    if at + 1 < tokens.len() && tokens[at].is("as") && !tokens[at].first {
        return (tokens[at + 1].text.clone(), at + 2);
    }
    (path.last().cloned().unwrap_or_default(), at)
}

/// The names that the tokens in `range` use. Fields behind a dot, labels and binders are none.
pub fn uses(tokens: &[Token], range: Range<usize>) -> Vec<Use> {
    let mut found = Vec::new();
    let mut i = range.start;
    while i < range.end {
        if tokens[i].is("(") || tokens[i].is("{") {
            i += 1 + binders(tokens, i + 1);
            continue;
        }
        if !tokens[i].is_name() || is_member(tokens, i) || is_label(tokens, i) {
            i += 1;
            continue;
        }
        let (names, next) = path(tokens, i);
        found.push(Use { head: names[0].clone(), rest: names[1..].to_vec() });
        i = next;
    }
    found
}

// How many names from `at` on are bound in `(x y : A)`.
fn binders(tokens: &[Token], at: usize) -> usize {
    let names = tokens[at..].iter().take_while(|t| t.is_name() && !t.is(":")).count();
    let typed = tokens.get(at + names).is_some_and(|t| t.is(":"));
    names * usize::from(typed)
}

fn is_member(tokens: &[Token], at: usize) -> bool {
    at > 0 && tokens[at].joined && tokens[at - 1].is(".")
}

fn is_label(tokens: &[Token], at: usize) -> bool {
    at > 0
        && (tokens[at - 1].is("{") || tokens[at - 1].is(";"))
        && tokens.get(at + 1).is_some_and(|t| t.is("=") || t.is(":"))
}

/// What stands in an operator's name for each of its arguments, as in `◌+◌`.
pub const PLACE: char = '◌';

/// The spellings under which a name is used: its own and, of an operator, its first part.
pub fn spellings(name: &str) -> Vec<String> {
    let part = name.split(PLACE).find(|part| !part.is_empty());
    match part {
        Some(part) if part != name => vec![name.to_string(), part.to_string()],
        _ => vec![name.to_string()],
    }
}

/// Does a use of `used` mean `name`? A section such as `◌+` or `+◌` means its operator.
pub fn means(used: &str, name: &str) -> bool {
    let trimmed = used.trim_matches(PLACE);
    spellings(name).iter().any(|spelling| spelling == used || spelling == trimmed)
}
