//! Long lines, idle `pub`, definitions over code and bad links are found, and what is repaired is not.

use cellfacet_lint::tree::Tree;
use cellfacet_lint::{closed, layers, links, visibility, width, Finding};

fn whats(found: Vec<Finding>) -> Vec<String> {
    found.into_iter().map(|finding| format!("{}: {}", finding.line, finding.what)).collect()
}

#[test]
fn a_line_has_160_characters_and_not_bytes() {
    let line = |count: usize| format!("a\n{}\n", "λ".repeat(count));
    for file in ["crates/c/specs/A.antt", "crates/c/src/lib.rt"] {
        let long = whats(width::findings(&Tree::of(&[(file, &line(161))])));
        assert_eq!(long, ["2: 161 characters in a line, more than 160"]);
        assert!(width::findings(&Tree::of(&[(file, &line(160))])).is_empty());
    }
    assert!(width::findings(&Tree::of(&[("A.md", &line(161))])).is_empty());
}

fn idle(files: &[(&str, &str)]) -> Vec<String> {
    whats(visibility::findings(&Tree::of(files)))
}

#[test]
fn a_function_that_only_its_crate_calls() {
    let own = ("crates/a/src/lib.rt", "pub mod m;\nfn g() {\n    m::f()\n}\n");
    let inner = ("crates/a/src/m.rt", "pub fn f() {\n}\n");
    let other = ("crates/b/src/lib.rt", "use a::m;\nfn g() {\n    m::f()\n}\n");
    let found =
        ["1: pub mod m is used by no other crate", "1: pub fn f is used by no other crate"];
    assert_eq!(idle(&[own, inner]), found);
    assert!(idle(&[own, inner, other]).is_empty());
    let private = ("crates/a/src/lib.rt", "mod m;\nfn g() {\n    m::f()\n}\n");
    assert!(idle(&[private, inner]).is_empty());
    let closed = ("crates/a/src/lib.rt", "pub(crate) fn f() {\n}\n");
    assert!(idle(&[closed]).is_empty());
}

#[test]
fn comments_and_locals_of_other_crates_are_no_uses() {
    let own = ("crates/a/src/lib.rt", "pub fn f() {\n}\n");
    let other = ("crates/b/src/lib.rt", "// a::f\nfn g() {\n    f()\n}\n");
    assert_eq!(idle(&[own, other]), ["1: pub fn f is used by no other crate"]);
    let by_itself = ("crates/a/src/lib.rt", "pub fn f() {\n}\nfn g() {\n    a::f()\n}\n");
    assert_eq!(idle(&[by_itself]), ["1: pub fn f is used by no other crate"]);
    let other = ("crates/b/src/lib.rt", "fn g() {\n    a::f()\n}\n");
    assert!(idle(&[own, other]).is_empty());
}

#[test]
fn types_by_interfaces_and_definitions() {
    let types = "pub enum E {\n    One(S),\n}\npub struct S {\n    pub n: u8,\n}\npub struct Alone {\n    pub n: u8,\n}\n";
    let own = ("crates/a/src/lib.rt", types);
    let other = ("crates/b/src/lib.rt", "use a::E;\nfn g() -> E {\n    h()\n}\n");
    assert_eq!(idle(&[own, other]), ["7: pub struct Alone is used by no other crate"]);
    let specs = ("crates/b/specs/A.antt", "use Rattle.a.specs.declared.Alone.{Alone}\n");
    assert!(idle(&[own, other, specs]).is_empty());
    let within = ("crates/a/specs/A.antt", "use Rattle.a.specs.declared.Alone.{Alone}\n");
    assert_eq!(idle(&[own, other, within]).len(), 1);
}

#[test]
fn types_of_a_module_by_definitions() {
    let root = ("crates/a/src/lib.rt", "pub mod m;\n");
    let own = ("crates/a/src/m.rt", "pub struct S {\n    pub n: u8,\n}\n");
    let specs = ("crates/b/specs/A.antt", "use Rattle.a.specs.declared.m.S.TheVariants as S\n");
    assert_eq!(idle(&[root, own]).len(), 2);
    assert!(idle(&[root, own, specs]).is_empty());
}

#[test]
fn exports_methods_and_offered_calls() {
    let code = "#[unsafe(no_mangle)]\npub extern \"C\" fn e() {\n}\nimpl W {\n    pub fn m() {\n    }\n}\npub fn call() {\n}\n";
    let own = ("crates/a/src/lib.rt", code);
    assert_eq!(idle(&[own]), ["8: pub fn call is used by no other crate"]);
    let page = "### What is a public call\n`call` (`a`)\n\n### Other\n`x`\n";
    assert!(idle(&[own, ("docs/DECISIONS.md", page)]).is_empty());
    let page = "### What is a public call\n`x`\n\n### Other\n`call`\n";
    assert_eq!(idle(&[own, ("docs/DECISIONS.md", page)]).len(), 1);
}

#[test]
fn definitions_that_only_their_file_uses() {
    let proof = "use Rattle.c.specs.S.{g}\n\npub f_spec : T\nf_spec = g\n";
    let idle = |text: &str| {
        let files = [("crates/c/specs/S.antt", text), ("crates/d/proofs/f/Proof.antt", proof)];
        whats(closed::findings(&Tree::of(&files)))
    };
    let found = ["1: pub low is used by its own file alone"];
    assert_eq!(
        idle("pub low : T\nlow = x\n\nmid : low\nmid = low\n\npub g : T\ng = mid\n"),
        found
    );
    assert!(idle("low : T\nlow = x\n\nmid : low\nmid = low\n\npub g : T\ng = mid\n").is_empty());
    assert!(idle("pub low : T\nlow = x\n\npub g : low\ng = x\n").is_empty());
}

#[test]
fn definitions_that_name_what_mirrors_code() {
    let over = |file: &str, text: &str| whats(layers::findings(&Tree::of(&[(file, text)])));
    let text = "use Rattle.a.specs.code.S.{f}\n\ng : T\ng = f\n";
    for file in ["crates/c/specs/S.antt", "crates/c/specs/laws/S.antt"] {
        assert_eq!(over(file, text), ["1: import f is of specs/code"]);
    }
    let own = "use Rattle.c.specs.code.S as S\n\ng : T\ng = S.f\n";
    assert_eq!(over("crates/c/specs/S.antt", own), ["1: import S is of specs/code"]);
    let whole = "g : T\ng = Rattle.a.specs.code.S.f\n";
    let found = ["1: Rattle.a.specs.code.S.f is of specs/code"];
    assert_eq!(over("crates/c/specs/S.antt", whole), found);
    for file in ["crates/c/specs/code/T.antt", "crates/c/proofs/L.antt"] {
        assert!(over(file, text).is_empty());
    }
    assert!(
        over("crates/c/specs/S.antt", "use Rattle.a.specs.S.{f}\n\ng : T\ng = f\n").is_empty()
    );
    assert!(
        over("crates/c/specs/S.antt", "use lib.specs.code.{f}\n\ng : T\ng = f\n").is_empty()
    );
}

fn bad(text: &str) -> Vec<String> {
    let specs = "pub f : T\nf = x\n\npub record R : Type 0 where\n  pub left : T\n";
    whats(links::findings(&Tree::of(&[("docs/A.md", text), ("crates/c/specs/S.antt", specs)])))
}

#[test]
fn links_to_files() {
    assert_eq!(bad("see [b](B.md)\n"), ["1: no file B.md"]);
    assert_eq!(bad("see\n[b\nc](../C.md#d)\n"), ["2: no file ../C.md"]);
    assert!(bad("[a](A.md) [s](../crates/c/specs/) [e](https://e.example/x) [h](#here)\n")
        .is_empty());
}

#[test]
fn links_to_definitions() {
    assert_eq!(
        bad("[`g`](../crates/c/specs/S.antt)\n"),
        ["1: no definition g in ../crates/c/specs/S.antt"]
    );
    for name in ["f", "R", "left"] {
        assert!(bad(&format!("[`{name}`](../crates/c/specs/S.antt)\n")).is_empty());
    }
    assert!(bad("[the file](../crates/c/specs/S.antt)\n").is_empty());
}
