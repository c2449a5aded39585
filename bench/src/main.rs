//! Times the proved code against the independent program, and against a copy of the same bytes;
//! uploads against one check of the whole.
//!
//! `cellfacet-bench` prints two tables; `cellfacet-bench --once` does each thing once and times
//! nothing, for a profiler and the gate.

mod sample;
mod time;
mod work;

use std::process::ExitCode;

use cellfacet_tests::transaction::BASE;

use sample::{samples, with_200_slots, Order, Sample, FULL};
use work::{checked, filled, merged, uploaded, written, Work};

/// The numbers of pieces in which a transaction is uploaded.
const PIECES: [usize; 3] = [1, 16, 256];

/// Every sample is checked; the full ones are written, filled and merged too, and those with 200
/// slots are merged.
fn works<'a>(samples: &'a [Sample], drafts: &'a [Sample]) -> Vec<Work<'a>> {
    let full = || samples.iter().filter(|sample| sample.length == FULL);
    let checks = samples.iter().map(checked).chain(full().map(written));
    let merges = full().chain(drafts).map(merged);
    checks.chain(full().filter_map(filled)).chain(merges).collect()
}

/// The full transactions of type 0, in pieces.
fn uploads(samples: &[Sample]) -> Vec<Work<'_>> {
    let of_base = |sample: &&Sample| sample.type_id == BASE && sample.length == FULL;
    let uploads = |sample| PIECES.map(|count| uploaded(sample, count));
    samples.iter().filter(of_base).flat_map(uploads).collect()
}

/// A table whose last column is the ratio to `other`.
fn print(other: &str, works: Vec<Work>) {
    println!("| call | type | bytes | lists | proved, ns | to independent | to {other} |");
    println!("|---|---|---|---|---|---|---|");
    for Work { call, sample, runs } in works {
        let (proved, ratios) = time::measured(runs);
        let ratios: Vec<String> = ratios.iter().map(|ratio| format!("{ratio:.2}")).collect();
        println!("| {call} | {sample} | {proved:.0} | {} |", ratios.join(" | "));
    }
}

fn main() -> ExitCode {
    let arguments: Vec<String> = std::env::args().skip(1).collect();
    let once = match &arguments.iter().map(String::as_str).collect::<Vec<_>>()[..] {
        [] => false,
        ["--once"] => true,
        _ => {
            eprintln!("usage: cellfacet-bench [--once]");
            return ExitCode::from(2);
        }
    };
    let (samples, drafts) = (samples(), [Order::Early, Order::Late].map(with_200_slots));
    // What is timed is done once here, and both programs must do it alike.
    let (works, uploads) = (works(&samples, &drafts), uploads(&samples));
    if !once {
        print("a copy", works);
        println!();
        print("one check", uploads);
    }
    ExitCode::SUCCESS
}
