//! The files of the repository.

use std::collections::{BTreeMap, BTreeSet};
use std::fs;
use std::path::Path;

/// Texts and paths, by their names from the root on.
#[derive(Default)]
pub struct Tree {
    /// The sources, edits and pages.
    pub texts: BTreeMap<String, String>,
    /// Every file and folder.
    pub paths: BTreeSet<String>,
}

const READ: [&str; 4] = ["rt", "antt", "md", "edit"];
// Behind `out` is what rt makes of the sources.
const SKIPPED: [&str; 3] = ["target", ".git", "out"];

impl Tree {
    /// Reads what is under `root`, which is to hold sources.
    pub fn read(root: &Path) -> Result<Tree, String> {
        let mut tree = Tree::default();
        tree.folder(root, "")?;
        let any = tree.with("antt").next().is_some();
        any.then_some(tree).ok_or(format!("{}: no sources", root.display()))
    }

    /// A tree of these files alone.
    pub fn of(files: &[(&str, &str)]) -> Tree {
        let mut tree = Tree::default();
        for (name, text) in files {
            tree.texts.insert(name.to_string(), text.to_string());
            for (at, _) in name.match_indices('/') {
                tree.paths.insert(name[..at].to_string());
            }
            tree.paths.insert(name.to_string());
        }
        tree
    }

    /// The texts whose names end in `.extension`.
    pub fn with<'a>(
        &'a self,
        extension: &'static str,
    ) -> impl Iterator<Item = (&'a str, &'a str)> + 'a {
        let ends = move |name: &str| extension_of(name) == Some(extension);
        self.texts
            .iter()
            .filter(move |(name, _)| ends(name))
            .map(|(n, t)| (n.as_str(), t.as_str()))
    }

    fn folder(&mut self, folder: &Path, prefix: &str) -> Result<(), String> {
        let shown = folder.display();
        for entry in fs::read_dir(folder).map_err(|e| format!("{shown}: {e}"))? {
            let entry = entry.map_err(|e| format!("{shown}: {e}"))?;
            let name = entry.file_name().to_string_lossy().into_owned();
            if SKIPPED.contains(&name.as_str()) {
                continue;
            }
            let path = format!("{prefix}{name}");
            let kind = entry.file_type().map_err(|e| format!("{path}: {e}"))?;
            if kind.is_dir() {
                self.folder(&entry.path(), &format!("{path}/"))?;
            } else if READ.iter().any(|&read| extension_of(&name) == Some(read)) {
                let text =
                    fs::read_to_string(entry.path()).map_err(|e| format!("{path}: {e}"))?;
                self.texts.insert(path.clone(), text);
            }
            self.paths.insert(path);
        }
        Ok(())
    }
}

fn extension_of(name: &str) -> Option<&str> {
    name.rsplit_once('.').map(|(_, extension)| extension)
}
