//! Unused imports are found, and used ones are not.

use cellfacet_lint::imports::{findings, unused_in_code, unused_in_definitions};
use cellfacet_lint::tree::Tree;

fn definitions(text: &str) -> Vec<(usize, String)> {
    unused_in_definitions(text, &[])
}

fn code(text: &str) -> Vec<(usize, String)> {
    unused_in_code(text, &[])
}

#[track_caller]
fn only(found: Vec<(usize, String)>, line: usize, name: &str) {
    assert_eq!(found, [(line, name.to_string())]);
}

#[test]
fn a_name() {
    only(definitions("use M.{a, b}\n\nc : a\nc = a\n"), 1, "b");
    assert!(definitions("use M.{a, b}\n\nc : a\nc = b\n").is_empty());
}

#[test]
fn a_renamed_name() {
    only(definitions("use M.{a as b}\n\nc : T\nc = a\n"), 1, "b");
    assert!(definitions("use M.{a as b}\n\nc : T\nc = b\n").is_empty());
}

#[test]
fn lists_of_several_lines() {
    only(definitions("use M.{\n  a,\n  b,\n}\n\nc : T\nc = a\n"), 3, "b");
    assert!(definitions("use M.{\n  a,\n  b,\n}\n\nc : T\nc = a b\n").is_empty());
}

#[test]
fn operators() {
    only(definitions("use M.{◌++◌, ◌∷◌}\n\nc : T\nc (x ∷ xs) = xs\n"), 1, "◌++◌");
    assert!(definitions("use M.{◌++◌, ◌∷◌}\n\nc : T\nc (x ∷ xs) = xs ++ xs\n").is_empty());
    assert!(definitions("use M.{◌++◌}\n\nc : T\nc = ◌++◌ x y\n").is_empty());
    assert!(definitions("use M.{◌+◌}\n\nc : T\nc = map (◌+ 1) xs\n").is_empty());
    assert!(definitions("use M.{if◌then◌else◌}\n\nc : T\nc = if a then b else d\n").is_empty());
    only(definitions("use M.{◌+◌}\n\nc : T\nc = a ++ b\n"), 1, "◌+◌");
}

#[test]
fn a_line_below_is_a_letter() {
    only(definitions("use M.{order_from}\n\nc : T\nc = order\n"), 1, "order_from");
    only(definitions("use M.{order}\n\nc : T\nc = order_from\n"), 1, "order");
    assert!(definitions("use M.{order_from}\n\nc : T\nc = order_from\n").is_empty());
}

#[test]
fn modules() {
    only(definitions("use M as X\n\nc : T\nc = X\n"), 1, "X");
    assert!(definitions("use M as X\n\nc : T\nc = X.a\n").is_empty());
    only(definitions("use L.M\n\nc : T\nc = L.M.a\n"), 1, "M");
    assert!(definitions("use L.M\n\nc : T\nc = M.a\n").is_empty());
    assert!(definitions("use L.M as Q\nuse Q.{x}\n\nc : T\nc = x\n").is_empty());
}

#[test]
fn fields_labels_and_binders_are_no_uses() {
    only(definitions("use M.{length}\n\nc : T\nc = v .length\n"), 1, "length");
    only(definitions("use M.{length}\n\nc : T\nc = v.length\n"), 1, "length");
    only(definitions("use M.{length}\n\nc : T\nc = f {length = 1}\n"), 1, "length");
    only(definitions("use M.{end}\n\nc : T\nc = record { start = 0; end = 1 }\n"), 1, "end");
    only(definitions("use M.{end}\n\nc : (start end : T) → T\nc = f\n"), 1, "end");
    only(definitions("use M.{end}\n\nc : ((end : T) → T) → T\nc = f\n"), 1, "end");
    assert!(definitions("use M.{end}\n\nc : T\nc = record { start = end }\n").is_empty());
}

#[test]
fn comments_and_texts_are_no_uses() {
    only(definitions("use M.{a}\n\n-- of a\nc : T\nc = \"a\" {- a -}\n"), 1, "a");
    only(code("use m::A;\n// A\nfn f() -> u8 {\n    g(\"A\")\n}\n"), 1, "A");
}

#[test]
fn parameters_and_unfolding_lines_are_uses() {
    assert!(definitions("use M.{A}\n\nmodule _ (x : A) where\n  c : T\n  c = x\n").is_empty());
    assert!(definitions("use M.{a}\n\nc : T\nunfolding a\nc = d\n").is_empty());
}

#[test]
fn ghost_imports() {
    let uses = "fn f(s: u8) -> u8\n    ensures { result ≡ a s }\n{\n    b(s)\n}\n";
    only(code(&format!("ghost use M.{{◌≡◌, a, b}};\n{uses}")), 1, "b");
    assert!(code(&format!("ghost use M.{{◌≡◌, a}};\n{uses}")).is_empty());
}

#[test]
fn named_and_starred_clauses_and_ghost_items() {
    let clauses = "fn f(s: u8) -> u8\n    requires b { a s }\n    ensures* b { sem (c s) }\n{\n    s\n}\n";
    only(code(&format!("ghost use M.{{a, sem, c, b}};\n{clauses}")), 1, "b");
    let items = "struct S {\n    n: u8,\n    pub ghost b: { a n } by { c n },\n}\nimpl T for S {\n    ghost b: { d } = { e };\n}\n";
    only(code(&format!("ghost use M.{{a, b, c, d, e}};\n{items}")), 1, "b");
    assert!(code(&format!("ghost use M.{{a, c, d, e}};\n{items}")).is_empty());
}

#[test]
fn imports_of_code() {
    only(code("use m::A;\nfn f() -> u8 {\n    s.A\n}\n"), 1, "A");
    only(code("use m::{A, n::B};\nfn f() -> A {\n    g()\n}\n"), 1, "B");
    assert!(code("use m::{A, n::B as C};\nfn f() -> A {\n    C::g()\n}\n").is_empty());
    assert!(code("use m::N;\nfn f() -> &[u8] {\n    &s[1..N]\n}\n").is_empty());
}

#[test]
fn what_only_an_edit_names_is_used() {
    let source = ("crates/c/specs/A.antt", "use M.{a, b}\n\nc : T\nc = a\n");
    let edit = "# another\nfile: specs/A.antt\nold: c = a\nnew: c = b\n";
    assert_eq!(findings(&Tree::of(&[source])).len(), 1);
    assert!(findings(&Tree::of(&[source, ("crates/c/must-fail/x.edit", edit)])).is_empty());
    let several = "file: specs/A.antt\nold: c : T\nnew: c : S\nold: c = a\nnew: c = b\n";
    assert!(findings(&Tree::of(&[source, ("crates/c/must-fail/x.edit", several)])).is_empty());
    let elsewhere = "file: specs/B.antt\nold: c = a\nnew: c = b\n";
    assert_eq!(
        findings(&Tree::of(&[source, ("crates/c/must-fail/x.edit", elsewhere)])).len(),
        1
    );
}

#[test]
fn what_only_an_edit_of_code_names_is_used() {
    let source = ("crates/c/src/lib.rt", "use m::{a, b};\nfn c() -> u8 {\n    a()\n}\n");
    let edit = "file: src/lib.rt\nold: a()\nnew: b::new()\n";
    assert_eq!(findings(&Tree::of(&[source])).len(), 1);
    assert!(findings(&Tree::of(&[source, ("crates/c/must-fail/x.edit", edit)])).is_empty());
}
