//! The declarations of a `.antt` file.

use crate::scope::{import, uses, Import, Use};
use crate::tokens::{tokens, Token};
use std::ops::Range;

/// A definition, lemma, data type, record or rule set.
#[derive(Clone, Debug, Default)]
pub struct Declaration {
    /// Its name.
    pub name: String,
    /// Constructors of a data type, or names that an `open` line makes.
    pub others: Vec<String>,
    /// Fields of a record.
    pub fields: Vec<String>,
    /// Other files may name it.
    pub public: bool,
    /// The line of its name.
    pub line: usize,
    /// What it uses, the parameters of the blocks around it too.
    pub uses: Vec<Use>,
}

impl Declaration {
    /// The names by which it can be used.
    pub fn names(&self) -> impl Iterator<Item = &String> {
        std::iter::once(&self.name).chain(&self.others)
    }
}

/// What a file brings in and declares.
#[derive(Clone, Debug, Default)]
pub struct File {
    /// Its imports.
    pub imports: Vec<Import>,
    /// Its declarations.
    pub declarations: Vec<Declaration>,
    /// What the parameters of its blocks use.
    pub parameters: Vec<Use>,
}

impl File {
    /// All that it uses.
    pub fn uses(&self) -> impl Iterator<Item = &Use> {
        self.declarations.iter().flat_map(|d| &d.uses).chain(&self.parameters)
    }
}

struct Block {
    indent: usize,
    parameters: Vec<Use>,
}

const MODIFIERS: [&str; 5] = ["pattern", "unfoldable", "abbrev", "pub", "axiom"];

/// Reads a file.
pub fn read(text: &str) -> File {
    let tokens = tokens(text, 1);
    let mut file = File::default();
    let mut blocks = vec![Block { indent: 0, parameters: Vec::new() }];
    let mut at = 0;
    while at < tokens.len() {
        while blocks.len() > 1 && tokens[at].column < blocks[blocks.len() - 1].indent {
            blocks.pop();
        }
        let block = &blocks[blocks.len() - 1];
        let end = end_of_item(&tokens, at, block.indent);
        match opened(&tokens, at, end) {
            Some(inner) => {
                let own = uses(&tokens, at..inner);
                file.parameters.extend(own.iter().cloned());
                let parameters = block.parameters.iter().cloned().chain(own).collect();
                blocks.push(Block { indent: tokens[inner].column, parameters });
                at = inner;
            }
            None => {
                item(&mut file, &tokens, at..end, &block.parameters);
                at = end;
            }
        }
    }
    file
}

// The place of the next token that begins a line and is not indented deeper than `indent`.
fn end_of_item(tokens: &[Token], at: usize, indent: usize) -> usize {
    let later = |i: &usize| tokens[*i].first && tokens[*i].column <= indent;
    (at + 1..tokens.len()).find(later).unwrap_or(tokens.len())
}

// The first token inside, where a block begins at `at`.
fn opened(tokens: &[Token], at: usize, end: usize) -> Option<usize> {
    let inner = match tokens[at].text.as_str() {
        "module" => (at..end).find(|&i| tokens[i].is("where"))? + 1,
        "mutual" => at + 1,
        _ => return None,
    };
    (inner < end).then_some(inner)
}

fn item(file: &mut File, tokens: &[Token], range: Range<usize>, parameters: &[Use]) {
    let at = range.clone().find(|&i| !MODIFIERS.contains(&tokens[i].text.as_str()));
    let Some(at) = at else { return };
    let used = uses(tokens, range.clone());
    match tokens[at].text.as_str() {
        "use" => file.imports.extend(import(tokens, at).0),
        "mod" | "infix" | "infixl" | "infixr" => {}
        word => match declared(tokens, at, range.end, word) {
            Some(mut declaration) => {
                declaration.public = tokens[range.start..at].iter().any(|t| t.is("pub"));
                declaration.uses = used.into_iter().chain(parameters.iter().cloned()).collect();
                file.declarations.push(declaration);
            }
            None => file.declarations.last_mut().map_or((), |last| last.uses.extend(used)),
        },
    }
}

// What is declared at `at`; a clause or an `unfolding` line declares nothing.
fn declared(tokens: &[Token], at: usize, end: usize, word: &str) -> Option<Declaration> {
    let keyword = ["data", "record", "ruleset", "open"].contains(&word);
    if !(keyword && at + 1 < end) && !is_signature(tokens, at) {
        return None;
    }
    let inner = match word {
        "data" | "record" => inner_names(tokens, at + 1..end),
        "open" => opened_names(tokens, at + 1..end),
        _ => Vec::new(),
    };
    let named = &tokens[at + usize::from(keyword)];
    let name = match word {
        "open" => inner.first()?.clone(),
        _ => named.text.clone(),
    };
    let (fields, mut others) =
        if word == "record" { (inner, Vec::new()) } else { (Vec::new(), inner) };
    if word == "data" || word == "record" {
        others.extend(derived_names(tokens, at + 1..end));
    }
    Some(Declaration { name, others, fields, line: named.line, ..Declaration::default() })
}

// A name, levels in braces perhaps, and a colon.
fn is_signature(tokens: &[Token], at: usize) -> bool {
    let mut i = at + 1;
    if tokens.get(i).is_some_and(|t| t.is("{")) {
        i += tokens[i..].iter().position(|t| t.is("}")).unwrap_or(0) + 1;
    }
    tokens[at].is_name() && tokens.get(i).is_some_and(|t| t.is(":"))
}

// The names that `open t use {x, y as z, f.{a}}` makes: x, z and a.
fn opened_names(tokens: &[Token], range: Range<usize>) -> Vec<String> {
    let is = |i: usize, text: &str| i < range.end && tokens[i].is(text);
    let Some(from) = range.clone().find(|&i| is(i, "use")) else { return Vec::new() };
    let mut found = Vec::new();
    let mut i = from + 1;
    while i < range.end {
        let renamed = is(i + 1, "as") && i + 2 < range.end;
        let outer = is(i + 1, ".") && is(i + 2, "{");
        if tokens[i].is_name() && !tokens[i].is("*") && !outer {
            found.push(tokens[i + 2 * usize::from(renamed)].text.clone());
        }
        i += if renamed { 3 } else { 1 };
    }
    found
}

// The names that `deriving P as name` makes at the end of a block.
fn derived_names(tokens: &[Token], range: Range<usize>) -> Vec<String> {
    let from = range.clone().find(|&i| tokens[i].is("deriving")).unwrap_or(range.end);
    let names = (from..range.end).filter(|&i| tokens[i - 1].is("as"));
    names.map(|i| tokens[i].text.clone()).collect()
}

// Constructors or fields: what stands before the colon on each line inside.
fn inner_names(tokens: &[Token], range: Range<usize>) -> Vec<String> {
    let Some(inside) = range.clone().find(|&i| tokens[i].is("where")) else {
        return Vec::new();
    };
    let Some(first) = tokens.get(inside + 1) else { return Vec::new() };
    let lines = (inside + 1..range.end)
        .filter(|&i| tokens[i].column == first.column && (tokens[i].first || i == inside + 1));
    lines.flat_map(|i| names_before_colon(&tokens[i..range.end])).collect()
}

// Of a line such as `open p use *`, none.
fn names_before_colon(tokens: &[Token]) -> Vec<String> {
    let names = tokens.iter().take_while(|t| t.is_name() && !t.is(":"));
    let names: Vec<&Token> = names.filter(|t| !t.is("pub")).collect();
    let others = ["open", "infix", "infixl", "infixr", "deriving"];
    if names.first().is_some_and(|first| others.iter().any(|word| first.is(word))) {
        return Vec::new();
    }
    names.into_iter().map(|t| t.text.clone()).collect()
}
