//! Dead definitions are found, and what a root reaches is not.

use cellfacet_lint::dead::findings;
use cellfacet_lint::tree::Tree;

fn names(files: &[(&str, &str)]) -> Vec<String> {
    let what = |finding: cellfacet_lint::Finding| finding.what.replace("nothing needs ", "");
    findings(&Tree::of(files)).into_iter().map(what).collect()
}

const PROOF: (&str, &str) = (
    "crates/c/proofs/put_it/Proof.antt",
    "use Rattle.c.proofs.L.{law}\n\npub put_it_spec : law\nput_it_spec = law\n",
);

#[test]
fn a_law_that_no_proof_cites() {
    let laws = "pub law : T\nlaw = x\n\npub other : T\nother = law\n";
    assert_eq!(names(&[PROOF, ("crates/c/proofs/L.antt", laws)]), ["other"]);
    assert!(names(&[PROOF, ("crates/c/proofs/L.antt", "pub law : T\nlaw = x\n")]).is_empty());
}

#[test]
fn laws_that_only_dead_laws_cite() {
    let laws = "pub law : T\nlaw = x\n\nlow : T\nlow = low\n\nhigh : T\nhigh = low\n";
    assert_eq!(names(&[PROOF, ("crates/c/proofs/L.antt", laws)]), ["low", "high"]);
    let laws = "low : T\nlow = low\n\npub law : T\nlaw = low\n";
    assert!(names(&[PROOF, ("crates/c/proofs/L.antt", laws)]).is_empty());
}

#[test]
fn the_proof_has_the_functions_name() {
    let other = ("crates/c/proofs/get/Proof.antt", "pub put_it_spec : T\nput_it_spec = x\n");
    assert_eq!(names(&[other]), ["put_it_spec"]);
}

#[test]
fn answers_have_the_names_of_their_goals() {
    let laws = ("crates/c/proofs/L.antt", "pub law : T\nlaw = x\n\npub far : T\nfar = x\n");
    let answers = |goals: &str, text: &str| {
        let text = format!(
            "use Rattle.c.proofs.L.{{law}}\nuse Rattle.c.proofs.{goals} as goal\n\n{text}"
        );
        names(&[laws, ("crates/c/proofs/m/put_it/Answers.antt", &text)])
    };
    let own = "m.put_it.Goals";
    let answer = "pub returns : goal.returns\nreturns c = law\n";
    assert_eq!(answers(own, answer), ["far"]);
    let helped = "low : T\nlow = law\n\npub returns : goal.returns\nreturns c = low\n";
    assert_eq!(answers(own, helped), ["far"]);
    let idle = format!("pub low : T\nlow = law\n\n{answer}");
    assert_eq!(answers(own, &idle), ["far", "low"]);
    assert_eq!(answers("m.get.Goals", answer), ["law", "far", "returns"]);
    let hidden = "returns : goal.returns\nreturns c = law\n";
    assert_eq!(answers(own, hidden), ["law", "far", "returns"]);
    let other = "pub low : goal.returns\nlow c = law\n";
    assert_eq!(answers(own, other), ["law", "far", "low"]);
}

#[test]
fn invariants_are_answers_too() {
    let text = |module: &str| {
        format!("use Rattle.c.proofs.f.{module} as goal\n\nabbrev pub invariant-loop-i : goal.invariant-loop-i\ninvariant-loop-i l = x\n")
    };
    let found = |module: &str| names(&[("crates/c/proofs/f/Invariants.antt", &text(module))]);
    assert!(found("Given").is_empty());
    assert_eq!(found("Goals"), ["invariant-loop-i"]);
}

#[test]
fn attributes_name_lemmas_and_definitions() {
    let laws = ("crates/c/proofs/L.antt", "pub law : T\nlaw = x\n\npub far : T\nfar = x\n");
    let specs = ("crates/c/specs/S.antt", "pub f : T\nf = x\n");
    let by = |file: &str, name: &str| {
        let code = format!("#[tactic(auto, using({name}::proofs::L::law), unfolding({name}::specs::S::f))]\nfn g() {{\n}}\n");
        names(&[laws, specs, (file, &code)])
    };
    assert_eq!(by("crates/c/src/lib.rt", "crate"), ["far"]);
    assert_eq!(by("crates/d/src/lib.rt", "c"), ["far"]);
    assert_eq!(by("crates/d/src/lib.rt", "crate"), ["law", "far", "f"]);
}

#[test]
fn qualified_names_and_whole_paths() {
    let laws = ("crates/c/proofs/L.antt", "pub law : T\nlaw = x\n\npub far : T\nfar = x\n");
    let by = |text: &str| {
        let proof = format!("use Rattle.c.proofs.L as L\n\npub f_spec : T\nf_spec = {text}\n");
        names(&[laws, ("crates/d/proofs/f/Proof.antt", &proof)])
    };
    assert_eq!(by("L.law"), ["far"]);
    assert_eq!(by("law far"), ["law", "far"]);
    assert!(by("L.law Rattle.c.proofs.L.far").is_empty());
}

#[test]
fn files_in_a_folder() {
    let specs = [
        ("crates/c/specs/Lib.antt", "pub mod laws\n"),
        ("crates/c/specs/laws.antt", "pub mod L\n"),
        ("crates/c/specs/laws/L.antt", "pub law : T\nlaw = x\n\npub far : T\nfar = x\n"),
    ];
    let by = |import: &str, text: &str| {
        let proof = format!("{import}\n\npub f_spec : T\nf_spec = {text}\n");
        names(&[&specs[..], &[("crates/d/proofs/f/Proof.antt", &proof)]].concat())
    };
    assert_eq!(by("use Rattle.c.specs.laws.L.{law}", "law"), ["far"]);
    assert_eq!(by("use Rattle.c.specs.laws.L as L", "L.far"), ["law"]);
    assert_eq!(by("use Rattle.c.specs.laws.M.{law}", "law"), ["law", "far"]);
    let root = ("crates/c/specs/Lib.antt", "pub law : T\nlaw = x\n\npub far : T\nfar = x\n");
    let proof = "use Rattle.c.specs.{law}\n\npub f_spec : T\nf_spec = law\n";
    assert_eq!(names(&[root, ("crates/d/proofs/f/Proof.antt", proof)]), ["far"]);
}

#[test]
fn operators_and_constructors() {
    let kinds = "pub data Kind : Type 0 where\n  one : Kind\n\npub ◌⊕◌ : T\na ⊕ b = a\n\npub record R : Type 0 where\n  pub one : T\n";
    let specs = ("crates/c/specs/K.antt", kinds);
    let by = |text: &str| {
        let proof =
            format!("use Rattle.c.specs.K.{{one, ◌⊕◌}}\n\npub f_spec : T\nf_spec = {text}\n");
        names(&[specs, ("crates/d/proofs/f/Proof.antt", &proof)])
    };
    assert_eq!(by("one"), ["◌⊕◌", "R"]);
    assert_eq!(by("a ⊕ b"), ["Kind", "R"]);
    assert_eq!(by("(a ⊕◌)"), ["Kind", "R"]);
}

#[test]
fn a_name_is_no_part_of_another() {
    let laws =
        "pub law : T\nlaw = x\n\npub law_of : T\nlaw_of = x\n\npub of_law : T\nof_law = x\n";
    assert_eq!(names(&[PROOF, ("crates/c/proofs/L.antt", laws)]), ["law_of", "of_law"]);
}

#[test]
fn rule_sets_and_parameters_of_blocks() {
    let laws =
        "A : T\nA = x\n\nmodule _ (x : A) where\n  a : T\n  a = x\n\npub ruleset law = (a)\n";
    assert!(names(&[PROOF, ("crates/c/proofs/L.antt", laws)]).is_empty());
    let laws =
        "A : T\nA = x\n\nmodule _ (x : A) where\n  a : T\n  a = x\n\npub ruleset law = (b)\n";
    assert_eq!(names(&[PROOF, ("crates/c/proofs/L.antt", laws)]), ["A", "a"]);
}

#[test]
fn contracts_pages_and_edits_are_roots() {
    let specs = ("crates/c/specs/S.antt", "pub f : T\nf = x\n\npub g : T\ng = x\n");
    let code = |clause: &str| {
        format!("ghost use Rattle.c.specs.S.{{f, g}};\nfn h() -> u8\n    {clause}\n{{\n    g()\n}}\n")
    };
    for clause in [
        "ensures { f result }",
        "ensures g { f result }",
        "requires* g { f x }",
        "ghost g: { f }",
    ] {
        assert_eq!(names(&[specs, ("crates/c/src/lib.rt", &code(clause))]), ["g"], "{clause}");
    }
    assert_eq!(names(&[specs, ("docs/A.md", "The law `g`, and f.")]), ["f"]);
    let edit = "file: specs/S.antt\nold: f = x\nnew: f = g\n";
    assert_eq!(names(&[specs, ("crates/c/must-fail/e.edit", edit)]), Vec::<String>::new());
    let edit = "file: specs/T.antt\nold: h\nnew: h'\nfile: specs/S.antt\nold: f = x\nnew: f = y\nold: g = x\nnew: g = f\n";
    assert_eq!(names(&[specs, ("crates/c/must-fail/e.edit", edit)]), Vec::<String>::new());
}
