//! What no proof refuses, found in the sources and pages of the repository.
//!
//! - `imports`: a name or module that a `use` or `ghost use` line brings, and nothing below it names.
//! - `dead`: a definition of a `.antt` file that no root reaches. Roots are what the contracts, the ghost
//!   items and the `#[tactic(..)]` lines in `.rt` name, the answers to goals in each `proofs/FN/Answers.antt`
//!   and `Invariants.antt`, the proof `FN_spec` of each `proofs/FN/Proof.antt`, the `new:` lines of the
//!   `must-fail` edits, and what a page names in a code span, as link or not. A law that only dead
//!   laws cite is reached by no root either.
//! - `width`: a line of more than 160 characters.
//! - `visibility`: a `pub` item of a `.rt` file that no other crate uses. Not found are: what is
//!   exported to C, methods, the calls that docs/DECISIONS.md offers under "What is a public call",
//!   what stands in a private module, types that a `pub` item of the crate names, and types that the
//!   definitions or proofs of another crate name.
//! - `closed`: a `pub` definition of a `.antt` file that no root, no other file and no other `pub`
//!   definition of its file names.
//! - `layers`: an import of a file of `specs/code` in a file of `specs` that is not below it, or a name
//!   there that is written by its whole path.
//! - `links`: a relative link of a page that leads to no file, and a link to a `.antt` file named as
//!   code that is not defined there.
//!
//! Names are compared as they are spelled. A local variable that is spelled like an import, or like a
//! definition of the file, counts as a use of it: then a finding is missed, and none is wrong.

pub mod closed;
pub mod dead;
pub mod definitions;
pub mod edits;
pub mod imports;
pub mod layers;
pub mod links;
pub mod rattle;
pub mod scope;
pub mod tokens;
pub mod tree;
pub mod visibility;
pub mod width;

use tree::Tree;

/// A fault, and where it is.
#[derive(Clone, Debug, PartialEq, Eq, PartialOrd, Ord)]
pub struct Finding {
    /// The file, from the repository's root.
    pub file: String,
    /// The line, from 1.
    pub line: usize,
    /// What is wrong.
    pub what: String,
}

/// One of the checks.
pub struct Check {
    /// Its name on the command line.
    pub name: &'static str,
    /// What is counted of it.
    pub counted: &'static str,
    /// What it finds.
    pub findings: fn(&Tree) -> Vec<Finding>,
}

/// All checks.
pub const CHECKS: [Check; 7] = [
    Check { name: "imports", counted: "unused imports", findings: imports::findings },
    Check { name: "dead", counted: "dead definitions", findings: dead::findings },
    Check { name: "width", counted: "long lines", findings: width::findings },
    Check { name: "visibility", counted: "idle pub", findings: visibility::findings },
    Check { name: "closed", counted: "idle pub of definitions", findings: closed::findings },
    Check { name: "layers", counted: "definitions over code", findings: layers::findings },
    Check { name: "links", counted: "bad links", findings: links::findings },
];
