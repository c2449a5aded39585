//! `pub` definitions that no other file uses.

use crate::dead::{self, Graph, Place};
use crate::tree::Tree;
use crate::Finding;
use std::collections::BTreeSet;

/// The `pub` definitions that no root and no other file names. What another `pub` definition of the
/// file names is left out: a signature that all may see, or a body that all may unfold, has to name
/// what all may name. Dead definitions are left to that check.
pub fn findings(tree: &Tree) -> Vec<Finding> {
    let graph = Graph::new(tree);
    let mut needed: BTreeSet<Place> = graph.roots(tree).into_iter().collect();
    for user in graph.places() {
        let public = graph.at_place(&user).public;
        let shown = |place: &Place| place.0 != user.0 || public && *place != user;
        needed.extend(graph.needs(user).into_iter().filter(shown));
    }
    let idle =
        graph.places().filter(|place| graph.at_place(place).public && !needed.contains(place));
    let tell = |name: &str| format!("pub {name} is used by its own file alone");
    let dead: BTreeSet<(String, usize)> =
        dead::findings(tree).into_iter().map(|finding| (finding.file, finding.line)).collect();
    let found = idle.map(|place| graph.finding(place, tell));
    found.filter(|finding| !dead.contains(&(finding.file.clone(), finding.line))).collect()
}
