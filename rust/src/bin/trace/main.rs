//! Answers a trace by the library: a call a line on standard input, an answer a line on standard
//! output. `trace --calls` prints the letters of the calls that the library has.

mod answer;
mod calls;
mod driver;
mod lines;

use calls::letters;
use driver::Driver;
use std::io::{self, BufRead, BufReader, BufWriter, Write};
use std::process::ExitCode;

fn main() -> ExitCode {
    let words: Vec<String> = std::env::args().skip(1).collect();
    let done = match words.iter().map(String::as_str).collect::<Vec<_>>()[..] {
        [] => answer(),
        ["--calls"] => writeln!(io::stdout(), "{}", letters()),
        _ => Err(io::Error::other("usage: trace < TRACE, or trace --calls")),
    };
    match done {
        Ok(()) => ExitCode::SUCCESS,
        Err(why) => {
            eprintln!("{why}");
            ExitCode::FAILURE
        }
    }
}

fn answer() -> io::Result<()> {
    let mut input = BufReader::with_capacity(1 << 16, io::stdin().lock());
    let mut output = BufWriter::with_capacity(1 << 16, io::stdout().lock());
    let mut driver = Driver::default();
    let mut line = Vec::new();
    while input.read_until(b'\n', &mut line)? > 0 {
        let text = line.strip_suffix(b"\n").unwrap_or(&line);
        writeln!(output, "{}", driver.answer(text))?;
        line.clear();
    }
    output.flush()
}
