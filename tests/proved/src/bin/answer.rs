//! Answers request lines from standard input with the proved code.

use std::io::{self, BufWriter};

use cellfacet_proved::Proved;
use cellfacet_tests::lines::serve;

fn main() -> io::Result<()> {
    serve(&Proved, io::stdin().lock(), BufWriter::new(io::stdout().lock()))
}
