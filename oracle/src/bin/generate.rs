//! `generate SEED CALLS [LETTERS [FRAMES]]`: prints a random trace, the same for the same words.
//! LETTERS are the only letters of calls in it, FRAMES the most frames of a pool (1,024).

use oracle::generate::{asked, Generator};
use oracle::trace::Trace;
use std::io::{self, BufWriter, Write};
use std::process::ExitCode;

const USAGE: &str = "generate SEED CALLS [LETTERS [FRAMES]]";

fn main() -> ExitCode {
    let words: Vec<String> = std::env::args().skip(1).collect();
    let Some((generator, calls)) = asked(&words) else {
        eprintln!("{USAGE}");
        return ExitCode::FAILURE;
    };
    match print(generator, calls) {
        Ok(()) => ExitCode::SUCCESS,
        Err(_) => ExitCode::FAILURE,
    }
}

fn print(mut generator: Generator, calls: u64) -> io::Result<()> {
    let mut output = BufWriter::new(io::stdout().lock());
    let mut trace = Trace::default();
    for _ in 0..calls {
        let line = generator.line(trace.pool());
        trace.call(&line);
        output.write_all(&line)?;
        output.write_all(b"\n")?;
    }
    output.flush()
}
