//! Times as ratios: the ways to do a thing are run by turns, in one process.

use std::time::Instant;

/// Each line is timed this often, all of its ways by turns.
const ROUNDS: usize = 41;
/// One time is taken over as many runs as take about this long.
const ROUND_NANOSECONDS: f64 = 1e6;

/// A way to do a thing.
pub type Run<'a> = Box<dyn FnMut() + 'a>;

/// Nanoseconds for one run, over `count` of them.
fn time(run: &mut Run, count: u32) -> f64 {
    let start = Instant::now();
    for _ in 0..count {
        run();
    }
    start.elapsed().as_nanos() as f64 / f64::from(count)
}

fn median(mut numbers: Vec<f64>) -> f64 {
    numbers.sort_by(f64::total_cmp);
    numbers[numbers.len() / 2]
}

/// Median nanoseconds of the first way, and the medians of its ratios to each of the others.
pub fn measured<const N: usize>(mut runs: [Run; N]) -> (f64, Vec<f64>) {
    let counts = runs.each_mut().map(|run| {
        let once = time(run, 20).max(1.0);
        (ROUND_NANOSECONDS / once).clamp(1.0, 1e5) as u32
    });
    let mut round = || {
        let mut n = 0;
        runs.each_mut().map(|run| {
            n += 1;
            time(run, counts[n - 1])
        })
    };
    let rounds: Vec<[f64; N]> = (0..ROUNDS).map(|_| round()).collect();
    let ratio = |n: usize| median(rounds.iter().map(|times| times[0] / times[n]).collect());
    let first = median(rounds.iter().map(|times| times[0]).collect());
    (first, (1..N).map(ratio).collect())
}
