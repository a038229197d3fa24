//! Prints the table of vectors.

use std::io::{self, BufWriter};

fn main() -> io::Result<()> {
    compare::table::write(BufWriter::new(io::stdout().lock()))
}
