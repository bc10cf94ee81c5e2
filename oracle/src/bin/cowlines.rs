//! The program `cowlines` of document 01, over the source.

use oracle::cowlines::Cowlines;
use std::io::{self, BufRead, BufReader, BufWriter, Write};

fn main() -> io::Result<()> {
    let mut input = BufReader::new(io::stdin().lock());
    let mut output = BufWriter::new(io::stdout().lock());
    let mut cowlines = Cowlines::default();
    let mut line = Vec::new();
    while input.read_until(b'\n', &mut line)? > 0 {
        let text = line.strip_suffix(b"\n").unwrap_or(&line);
        writeln!(output, "{}", cowlines.answer(text))?;
        line.clear();
    }
    output.flush()
}
