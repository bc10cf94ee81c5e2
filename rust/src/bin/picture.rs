//! Runs a trace from standard input and prints the picture of the pool at its end. Standard error
//! tells how many lines were refused, if any.

#[path = "trace/answer.rs"]
mod answer;
#[allow(dead_code)]
#[path = "trace/calls.rs"]
mod calls;
#[path = "trace/driver.rs"]
mod driver;
#[path = "trace/lines.rs"]
mod lines;

use driver::Driver;
use goramul::picture::Picture;
use std::io::{self, BufRead, Write};

fn main() -> io::Result<()> {
    let mut driver = Driver::default();
    let (mut lines, mut refused) = (0, Vec::new());
    for line in io::stdin().lock().split(b'\n') {
        lines += 1;
        if !driver.answer(&line?).starts_with("0 ") {
            refused.push(lines);
        }
    }
    if let Some(first) = refused.first() {
        let count = refused.len();
        eprintln!("refused: {count} of {lines} lines, the first is line {first}");
    }
    writeln!(io::stdout(), "{}", Picture::of(driver.pool.view()))
}
