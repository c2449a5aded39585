//! Tokens of definitions, and the words of code.

use cellfacet_lint::tokens::{tokens, Kind};
use cellfacet_lint::{definitions, rattle};

fn texts(source: &str) -> Vec<String> {
    tokens(source, 1).into_iter().map(|token| token.text).collect()
}

#[test]
fn names_are_runs_between_spaces_and_marks() {
    assert_eq!(texts("f x′ (a ∷ []) .0"), ["f", "x′", "(", "a", "∷", "[]", ")", ".", "0"]);
    assert_eq!(texts("W.on-value, {b}"), ["W", ".", "on-value", ",", "{", "b", "}"]);
}

#[test]
fn comments_are_left_out() {
    assert_eq!(texts("a -- b\nc {- d {- e -} f -} g"), ["a", "c", "g"]);
    assert_eq!(texts("le-trans n--m"), ["le-trans", "n--m"]);
}

#[test]
fn quoted_texts_and_escaped_names_are_one_token() {
    let found = tokens(r#"f "a -- \" b" «in» c"#, 1);
    let kinds: Vec<Kind> = found.iter().map(|token| token.kind).collect();
    assert_eq!(kinds, [Kind::Name, Kind::Text, Kind::Escaped, Kind::Name]);
    assert_eq!(found[2].text, "in");
}

#[test]
fn places_are_told() {
    let found = tokens("a\n  b c", 7);
    let places: Vec<_> = found.iter().map(|t| (t.line, t.column, t.first)).collect();
    assert_eq!(places, [(7, 0, true), (8, 2, true), (8, 4, false)]);
}

#[test]
fn declarations_have_their_names() {
    let text = "\
use M.{List}

-- a comment : of one line
pub data Kind : Type 0 where
  one : Kind
  two : ℕ → Kind

unfoldable pub record Pair : Type 0 where
  pub left : ℕ
  right : ℕ

module _ {A : Type 0} (x : A)
    (y : A) where
  pub same {ℓ} : x ≡ x
  unfolding one
  same = refl
    where
      inner : ℕ
      inner = 0

  module _ (z : A) where
    third : A
    third = z

pub ruleset rules = (same, third)

abbrev pub word : ℕ
word = 3

open word use {left, right as far, middle.{near}}
";
    let file = definitions::read(text);
    let names: Vec<&str> = file.declarations.iter().map(|d| d.name.as_str()).collect();
    assert_eq!(names, ["Kind", "Pair", "same", "third", "rules", "word", "left"]);
    assert_eq!(file.declarations[0].others, ["one", "two"]);
    assert_eq!(file.declarations[1].fields, ["left", "right"]);
    assert_eq!(file.declarations[2].line, 14);
    assert!(file.declarations[5].public);
    assert_eq!(file.declarations[6].others, ["left", "far", "near"]);
}

#[test]
fn blocks_derive_names_and_open_fields() {
    let text = "\
pub record Pair : Type 0 where
  pub left : ℕ
  open left use *
  right : ℕ
  deriving IsSet as Pair-set
";
    let file = definitions::read(text);
    assert_eq!(file.declarations[0].fields, ["left", "right"]);
    assert_eq!(file.declarations[0].others, ["Pair-set"]);
}

#[test]
fn contracts_are_apart_from_code() {
    let text = "\
// a comment with name
ghost use M.{f};
fn g(a: u64) -> u64
    requires { a < 2 }
    ensures meets { result ≡ f {x = a} }
{
    h(a, b\" text \\\" more\", '\"', k)
}
";
    let code = rattle::read(text);
    let words: Vec<&str> = code.words.iter().map(|word| word.text.as_str()).collect();
    assert!(words.contains(&"h") && words.contains(&"k"));
    assert!(!words.contains(&"f") && !words.contains(&"text"));
    assert!(code.contracts.iter().any(|used| used.head == "f"));
    let others = ["h", "x", "meets"];
    assert!(!code.contracts.iter().any(|used| others.contains(&used.head.as_str())));
    assert_eq!(code.ghosts.len(), 1);
}

#[test]
fn attributes_are_read() {
    let text = "#![tactic(auto)]\n#[tactic(auto, using(crate::proofs::A::b), unfolding(c::specs::D::e))]\nfn g() {\n}\n";
    let laws = rattle::read(text).laws;
    assert_eq!(laws, [["crate", "proofs", "A", "b"], ["c", "specs", "D", "e"]]);
}
