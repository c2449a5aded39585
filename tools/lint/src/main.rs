//! Runs the checks that are named on the command line, all where none is: prints what they find, a
//! line each, and last how many each found.

use cellfacet_lint::{tree::Tree, Check, CHECKS};
use std::path::Path;
use std::process::ExitCode;

fn chosen(names: &[String]) -> Result<Vec<&'static Check>, String> {
    if names.is_empty() {
        return Ok(CHECKS.iter().collect());
    }
    let named = |name: &String| CHECKS.iter().find(|check| check.name == name);
    names.iter().map(|name| named(name).ok_or(format!("no check {name}"))).collect()
}

fn run() -> Result<bool, String> {
    let names: Vec<String> = std::env::args().skip(1).collect();
    let checks = chosen(&names)?;
    let tree = Tree::read(Path::new("."))?;
    let mut found = Vec::new();
    let mut counts = Vec::new();
    for check in checks {
        let findings = (check.findings)(&tree);
        counts.push(format!("{} {}", findings.len(), check.counted));
        found.extend(findings);
    }
    found.sort();
    for finding in &found {
        println!("{}:{}: {}", finding.file, finding.line, finding.what);
    }
    println!("{} files: {}", tree.texts.len(), counts.join(", "));
    Ok(found.is_empty())
}

fn main() -> ExitCode {
    match run() {
        Ok(clean) => ExitCode::from(u8::from(!clean)),
        Err(message) => {
            eprintln!("cellfacet-lint: {message}");
            ExitCode::from(2)
        }
    }
}
