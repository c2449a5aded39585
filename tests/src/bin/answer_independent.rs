//! Answers request lines from standard input with the independent program.

use std::io::{self, BufWriter};

use cellfacet_tests::independent::Independent;
use cellfacet_tests::lines::serve;

fn main() -> io::Result<()> {
    serve(&Independent, io::stdin().lock(), BufWriter::new(io::stdout().lock()))
}
