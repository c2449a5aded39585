//! Writes inputs to start fuzzing from: `cellfacet-seeds FOLDER COUNT`. Each is an accepted
//! transaction, behind a head that empties or changes one slot in the second draft.

use std::path::Path;
use std::{env, fs, io};

use cellfacet_tests::draft::slots;
use cellfacet_tests::generate::valid::small_transaction;
use cellfacet_tests::generate::Random;

/// Room, the number of edits, and of each edit its length, place and byte, as `fuzz.c` reads
/// them; then the first draft.
fn seed(random: &mut Random) -> Vec<u8> {
    let draft = small_transaction(random);
    let places: Vec<usize> = match cellfacet_tests::check(&draft) {
        Ok(read) => slots(&draft, &read).collect(),
        Err(_) => Vec::new(),
    };
    let mut seed = vec![random.byte()];
    match places[..] {
        [] => seed.push(0),
        _ => {
            let [high, low] = (random.pick(&places) as u16).to_be_bytes();
            let (length, byte) = random.pick(&[(65, 0), (1, 1), (65, 0xff)]);
            seed.extend([1, length, high, low, byte]);
        }
    }
    seed.extend(draft);
    seed
}

fn main() -> io::Result<()> {
    let words: Vec<String> = env::args().skip(1).collect();
    let [folder, count] = &words[..] else {
        return Err(io::Error::other("usage: cellfacet-seeds FOLDER COUNT"));
    };
    let count: usize = count.parse().map_err(io::Error::other)?;
    fs::create_dir_all(folder)?;
    let mut random = Random::new(1);
    for number in 0..count {
        fs::write(Path::new(folder).join(format!("seed-{number}")), seed(&mut random))?;
    }
    Ok(())
}
