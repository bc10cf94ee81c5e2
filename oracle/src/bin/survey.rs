//! `survey SEED CALLS [LETTERS [FRAMES]]`: what the trace that `generate` prints for these words is
//! made of. A row for each letter, then where calls ran out of frames.

use oracle::generate::{asked, Generator};
use oracle::kernel_hal::mem;
use oracle::lines::{fields, TRACE};
use oracle::pool::{Answer, Code, Pool};
use oracle::state::NODES;
use oracle::trace::Trace;
use std::collections::{BTreeMap, BTreeSet};
use std::process::ExitCode;

const USAGE: &str = "survey SEED CALLS [LETTERS [FRAMES]]";

/// What the calls of a letter came to.
#[derive(Default)]
struct Row {
    codes: BTreeMap<Code, usize>,
    notices: usize,
    most_notices: usize,
    /// Accepted calls by the hidden nodes above their object.
    depths: BTreeMap<usize, usize>,
    /// Hidden nodes above, and frames taken by then, where no frame was free on the way to one
    /// page.
    ends: BTreeSet<(usize, usize)>,
}

fn main() -> ExitCode {
    let words: Vec<String> = std::env::args().skip(1).collect();
    let Some((generator, calls)) = asked(&words) else {
        eprintln!("{USAGE}");
        return ExitCode::FAILURE;
    };
    print(&run(generator, calls), calls);
    ExitCode::SUCCESS
}

fn run(mut generator: Generator, calls: u64) -> BTreeMap<char, Row> {
    let mut rows: BTreeMap<char, Row> = BTreeMap::new();
    let mut trace = Trace::default();
    for _ in 0..calls {
        let line = generator.line(trace.pool());
        let depth = depth(trace.pool(), &line);
        let free = mem::free_frames();
        if let Some(answer) = trace.call(&line) {
            let row = rows.entry(line[0].into()).or_default();
            row.count(&answer, depth);
            // Of the calls that take frames these tell that they ended at their first page.
            let first_page = b"gwW".contains(&line[0]) && answer.value == 0;
            if answer.code == Code::NoMemory && first_page {
                row.ends.insert((depth, free - mem::free_frames()));
            }
        }
    }
    rows
}

/// How many hidden nodes stand above the object of a line.
fn depth(pool: &Pool, line: &[u8]) -> usize {
    let state = pool.state();
    let object = match fields(line, TRACE) {
        Some((b's' | b'a' | b'n', _)) | None => None,
        Some((_, numbers)) => numbers.first().copied().filter(|o| *o < NODES as u64),
    };
    let mut at = object.and_then(|o| state.parent(o as usize));
    let mut above = 0;
    while let Some(node) = at {
        above += 1;
        at = state.parent(node);
    }
    above
}

impl Row {
    fn count(&mut self, answer: &Answer, depth: usize) {
        *self.codes.entry(answer.code).or_default() += 1;
        self.notices += answer.notices.len();
        self.most_notices = self.most_notices.max(answer.notices.len());
        if answer.code == Code::Ok {
            *self.depths.entry(depth).or_default() += 1;
        }
    }

    fn calls(&self) -> usize {
        self.codes.values().sum()
    }

    fn accepted(&self) -> usize {
        self.codes.get(&Code::Ok).copied().unwrap_or(0)
    }

    fn accepted_from(&self, depth: usize) -> usize {
        self.depths.range(depth..).map(|(_, count)| count).sum()
    }
}

fn print(rows: &BTreeMap<char, Row>, calls: u64) {
    println!("call   calls  accepted  8 deep  31 deep  notices  most  refused by code");
    for (letter, row) in rows {
        let refused = row.codes.iter().filter(|(code, _)| **code != Code::Ok);
        let refused: Vec<String> = refused
            .map(|(code, n)| format!("{}: {n}", *code as u32))
            .collect();
        println!(
            "{letter} {:>10} {:>8.1}% {:>7} {:>8} {:>8} {:>5}  {}",
            row.calls(),
            100.0 * row.accepted() as f64 / row.calls() as f64,
            row.accepted_from(8),
            row.accepted_from(31),
            row.notices,
            row.most_notices,
            refused.join(", "),
        );
    }
    let told: usize = rows.values().map(|row| row.notices).sum();
    let good: usize = rows.values().map(Row::calls).sum();
    println!("{calls} lines, {good} of them calls; {told} notices");
    for (letter, row) in rows.iter().filter(|(_, row)| !row.ends.is_empty()) {
        let taken: BTreeSet<usize> = row.ends.iter().map(|(_, taken)| *taken).collect();
        println!(
            "{letter} without a frame: after taking {taken:?}; {} pairs of depth and taken",
            row.ends.len()
        );
    }
}
