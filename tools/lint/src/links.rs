//! Links of the Markdown pages.

use crate::definitions;
use crate::tree::Tree;
use crate::Finding;

/// A link of a page.
#[derive(Debug, PartialEq, Eq)]
pub struct Link {
    /// What is shown.
    pub shown: String,
    /// Where it leads, without the place in that page.
    pub target: String,
    /// Its line.
    pub line: usize,
}

/// The relative links that lead nowhere.
pub fn findings(tree: &Tree) -> Vec<Finding> {
    let mut found = Vec::new();
    for (page, text) in tree.with("md") {
        for link in links(text) {
            if let Some(what) = fault(tree, page, &link) {
                found.push(Finding { file: page.to_string(), line: link.line, what });
            }
        }
    }
    found
}

fn fault(tree: &Tree, page: &str, link: &Link) -> Option<String> {
    let file = resolved(page, &link.target);
    if !file.is_empty() && !tree.paths.contains(&file) {
        return Some(format!("no file {}", link.target));
    }
    let name = link.shown.strip_prefix('`')?.split('`').next()?;
    let text = tree.texts.get(&file).filter(|_| file.ends_with(".antt"))?;
    let defined = definitions::read(text)
        .declarations
        .iter()
        .any(|d| d.names().chain(&d.fields).any(|defined| defined == name));
    (!defined).then(|| format!("no definition {name} in {}", link.target))
}

/// The links of a page that lead into the repository. A link may go on in the next line.
pub fn links(text: &str) -> Vec<Link> {
    let mut found = Vec::new();
    for (middle, _) in text.match_indices("](") {
        let Some(open) = text[..middle].rfind(['[', ']']) else { continue };
        let Some(length) = text[middle..].find(')') else { continue };
        let target = &text[middle + 2..middle + length];
        let target = target.split('#').next().unwrap_or_default();
        if text[open..].starts_with(']') || target.is_empty() || target.contains("://") {
            continue;
        }
        let line = text[..open].matches('\n').count() + 1;
        let shown = text[open + 1..middle].to_string();
        found.push(Link { shown, target: target.to_string(), line });
    }
    found
}

// The path from the root of what `page` names `target`.
fn resolved(page: &str, target: &str) -> String {
    let folder = page.rsplit_once('/').map_or("", |(folder, _)| folder);
    let mut parts: Vec<&str> = folder.split('/').filter(|part| !part.is_empty()).collect();
    for part in target.split('/') {
        match part {
            "" | "." => {}
            ".." => {
                parts.pop();
            }
            name => parts.push(name),
        }
    }
    parts.join("/")
}
