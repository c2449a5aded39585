//! Prints random request lines: `cellfacet-generate SEED COUNT KINDS..`.

use std::io::{self, BufWriter, Write};
use std::process::ExitCode;

use cellfacet_tests::generate::{Kind, Requests};

fn main() -> ExitCode {
    let arguments: Vec<String> = std::env::args().skip(1).collect();
    let Some((seed, count, kinds)) = parse(&arguments) else {
        let names = Kind::ALL.map(|(name, _)| name).join(" ");
        eprintln!("usage: cellfacet-generate SEED COUNT [{names}]..");
        return ExitCode::from(2);
    };
    match print(Requests::new(seed, kinds).take(count)) {
        Ok(()) => ExitCode::SUCCESS,
        Err(_) => ExitCode::FAILURE,
    }
}

/// Without a kind, all kinds are asked for.
fn parse(arguments: &[String]) -> Option<(u64, usize, Vec<Kind>)> {
    let [seed, count, names @ ..] = arguments else {
        return None;
    };
    let mut kinds = names.iter().map(|name| Kind::named(name)).collect::<Option<Vec<_>>>()?;
    if kinds.is_empty() {
        kinds.extend(Kind::ALL.map(|(_, kind)| kind));
    }
    Some((seed.parse().ok()?, count.parse().ok()?, kinds))
}

fn print(requests: impl Iterator<Item = String>) -> io::Result<()> {
    let mut output = BufWriter::new(io::stdout().lock());
    for request in requests {
        writeln!(output, "{request}")?;
    }
    output.flush()
}
