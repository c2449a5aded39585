//! Definitions and lemmas that nothing needs.

use crate::definitions::{self, Declaration, File};
use crate::edits::uses_by_file;
use crate::rattle;
use crate::scope::{in_crate, spellings, Import, Use, PLACE};
use crate::tree::Tree;
use crate::Finding;
use std::collections::{BTreeMap, BTreeSet};

// A declaration: its file, and its number there.
pub(crate) type Place<'a> = (&'a str, usize);

pub(crate) struct Graph<'a> {
    files: BTreeMap<&'a str, File>,
    // Declarations of each file by the spellings of their names.
    named: BTreeMap<&'a str, BTreeMap<String, Vec<usize>>>,
}

/// The declarations that no root reaches.
pub fn findings(tree: &Tree) -> Vec<Finding> {
    let graph = Graph::new(tree);
    let mut reached: BTreeSet<Place> = BTreeSet::new();
    let mut left = graph.roots(tree);
    while let Some(place) = left.pop() {
        if reached.insert(place) {
            left.extend(graph.needs(place));
        }
    }
    let dead = graph.places().filter(|place| !reached.contains(place));
    dead.map(|place| graph.finding(place, |name| format!("nothing needs {name}"))).collect()
}

impl<'a> Graph<'a> {
    pub(crate) fn new(tree: &'a Tree) -> Graph<'a> {
        let mut graph = Graph { files: BTreeMap::new(), named: BTreeMap::new() };
        for (name, text) in tree.with("antt") {
            let file = definitions::read(text);
            let named: &mut BTreeMap<String, Vec<usize>> = graph.named.entry(name).or_default();
            for (number, declaration) in file.declarations.iter().enumerate() {
                for spelling in declaration.names().flat_map(|name| spellings(name)) {
                    named.entry(spelling).or_default().push(number);
                }
            }
            graph.files.insert(name, file);
        }
        graph
    }

    /// Every declaration.
    pub(crate) fn places(&self) -> impl Iterator<Item = Place<'a>> + '_ {
        let numbers = |file: &File| 0..file.declarations.len();
        self.files.iter().flat_map(move |(&name, file)| numbers(file).map(move |n| (name, n)))
    }

    /// The declaration at a place.
    pub(crate) fn at_place(&self, place: &Place) -> &Declaration {
        &self.files[place.0].declarations[place.1]
    }

    /// What a declaration uses.
    pub(crate) fn needs(&self, place: Place<'a>) -> Vec<Place<'a>> {
        let imports = &self.files[place.0].imports;
        let uses = self.at_place(&place).uses.iter();
        uses.flat_map(|used| self.meant(place.0, imports, used)).collect()
    }

    /// What is wrong with a declaration, told by its name.
    pub(crate) fn finding(&self, place: Place, tell: impl Fn(&str) -> String) -> Finding {
        let declaration = self.at_place(&place);
        let what = tell(&declaration.name);
        Finding { file: place.0.to_string(), line: declaration.line, what }
    }

    pub(crate) fn roots(&self, tree: &'a Tree) -> Vec<Place<'a>> {
        let mut found = Vec::new();
        let spans: BTreeSet<&str> =
            tree.with("md").flat_map(|(_, text)| code_spans(text)).collect();
        found.extend(self.places().filter(|place| {
            let declaration = self.at_place(place);
            let shown = declaration.names().any(|name| spans.contains(name.as_str()));
            shown || self.is_entry(place)
        }));
        for (file, text) in tree.with("rt") {
            let code = rattle::read(text);
            let uses = code.contracts.iter();
            found.extend(uses.flat_map(|used| self.imported(&code.ghosts, used)));
            found.extend(code.laws.iter().flat_map(|law| self.given(file, law)));
        }
        for (name, uses) in uses_by_file(tree) {
            let Some((&name, file)) = self.files.get_key_value(name.as_str()) else { continue };
            found.extend(uses.iter().flat_map(|used| self.meant(name, &file.imports, used)));
        }
        found
    }

    // What a use in a file can mean: its own declarations, and what it imports.
    fn meant(&self, file: &'a str, imports: &[Import], used: &Use) -> Vec<Place<'a>> {
        let mut found = self.declared(file, &used.head);
        found.extend(self.imported(imports, used));
        found
    }

    fn declared(&self, file: &'a str, name: &str) -> Vec<Place<'a>> {
        let named = &self.named[file];
        let exact = named.get(name).into_iter().flatten();
        let section = named.get(name.trim_matches(PLACE)).into_iter().flatten();
        exact.chain(section).map(|&number| (file, number)).collect()
    }

    fn imported(&self, imports: &[Import], used: &Use) -> Vec<Place<'a>> {
        let paths = imports.iter().filter_map(|import| import.named(used));
        paths.chain([used.path()]).flat_map(|path| self.at(&path)).collect()
    }

    // The declarations at a path such as `Rattle.wire.specs.Bytes.value`; what stands behind the
    // item, such as a constructor behind its type, is left. A file such as `specs/laws.antt` that
    // declares no such item is passed by: the item may be in a file of the folder `specs/laws`.
    fn at(&self, path: &[&str]) -> Vec<Place<'a>> {
        let Some((name, below)) = in_crate(path) else { return Vec::new() };
        let mut module = format!("crates/{name}");
        for two in below.windows(2) {
            module = format!("{module}/{}", two[0]);
            for file in [format!("{module}.antt"), format!("{module}/Lib.antt")] {
                let found = self.named.get_key_value(file.as_str());
                let declared = found.map(|(&file, _)| self.declared(file, two[1]));
                if let Some(declared) = declared.filter(|declared| !declared.is_empty()) {
                    return declared;
                }
            }
        }
        Vec::new()
    }

    // What an attribute of a file of code gives to the tactics.
    fn given(&self, file: &str, law: &[String]) -> Vec<Place<'a>> {
        let own = file.split('/').nth(1).unwrap_or_default();
        let name = if law[0] == "crate" { own } else { &law[0] };
        let path = ["Rattle", name].into_iter().chain(law[1..].iter().map(String::as_str));
        self.at(&path.collect::<Vec<_>>())
    }

    // Is it what the checker looks for by its name? The proof of a function in `proofs/F/Proof.antt` is
    // `F_spec`; in `Answers.antt` and `Invariants.antt` each answer has the name of its goal.
    fn is_entry(&self, place: &Place) -> bool {
        let Some((folder, file)) = place.0.rsplit_once('/') else { return false };
        let declaration = self.at_place(place);
        let name = declaration.name.as_str();
        let goals = match file {
            "Proof.antt" => return folder.rsplit('/').next() == name.strip_suffix("_spec"),
            "Answers.antt" => "Goals",
            "Invariants.antt" => "Given",
            _ => return false,
        };
        let module = folder.strip_prefix("crates/").unwrap_or(folder).split('/');
        let goal: Vec<&str> =
            ["Rattle"].into_iter().chain(module).chain([goals, name]).collect();
        let imports = &self.files[place.0].imports;
        let is_goal = |used: &Use| {
            imports.iter().filter_map(|import| import.named(used)).any(|path| path == goal)
        };
        declaration.public && declaration.uses.iter().any(is_goal)
    }
}

/// The texts between backquotes.
pub fn code_spans(page: &str) -> impl Iterator<Item = &str> {
    page.split('`').skip(1).step_by(2)
}
