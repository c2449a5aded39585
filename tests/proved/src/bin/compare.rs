//! Compares the proved code with the independent program on random requests:
//! `cellfacet-compare SEED COUNT`.

use std::process::ExitCode;

use cellfacet_proved::compare::compare;
use cellfacet_tests::generate::{Kind, Requests};

fn main() -> ExitCode {
    let arguments: Vec<String> = std::env::args().skip(1).collect();
    let Some((seed, count)) = parse(&arguments) else {
        eprintln!("usage: cellfacet-compare SEED COUNT");
        return ExitCode::from(2);
    };
    println!("seed {seed}, {count} requests");
    let kinds = Kind::ALL.map(|(_, kind)| kind).to_vec();
    match compare(Requests::new(seed, kinds).take(count)) {
        Ok(met) => {
            println!("{} answered alike", met.requests);
            ExitCode::SUCCESS
        }
        Err(difference) => {
            println!("{difference}");
            ExitCode::FAILURE
        }
    }
}

fn parse(arguments: &[String]) -> Option<(u64, usize)> {
    let [seed, count] = arguments else {
        return None;
    };
    Some((seed.parse().ok()?, count.parse().ok()?))
}
