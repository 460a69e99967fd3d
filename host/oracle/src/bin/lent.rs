//! The program over lent regions of any content.

use std::io::{self, BufWriter, Read, Write};

const USAGE: &str = "\
usage: lent < FILE
FILE lends regions of any content and makes calls on them; `streams lent` writes such files. One line is printed for
each state and each call, with the call's output in hex and digests of the regions.
  --help  prints this";

fn main() -> io::Result<()> {
    oracle::help::answer(USAGE);
    let mut input = Vec::new();
    io::stdin().read_to_end(&mut input)?;
    let mut lines = BufWriter::new(io::stdout().lock());
    oracle::lent::run(&input, &mut lines)?;
    lines.flush()
}
