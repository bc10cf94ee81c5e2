//! Answers traces by the library and by the unchanged Rust, and ends with 1 at the first line that
//! differs; then also if a way to answer a call of the library, pinned in answers/calls.txt, never
//! came.
//!
//! - `beside traces TRACE..`: the traces of files
//! - `beside random SEED CALLS`: eight random traces, CALLS lines in all, as `generate` makes them
//! - `beside pools SEED POOLS`: random sound pools, put in both, and some random calls on each

#[path = "../../src/bin/trace/answer.rs"]
mod answer;
#[path = "../../src/bin/trace/calls.rs"]
mod calls;
#[path = "../../src/bin/trace/driver.rs"]
mod driver;
#[path = "../../src/bin/trace/lines.rs"]
mod lines;
mod load;
mod pair;

use oracle::coverage::{library_letters, Counts, Demand};
use oracle::generate::{Generator, LETTERS};
use oracle::random::Random;
use oracle::sound_pools::sound_pool;
use pair::Pair;
use std::process::ExitCode;

const USAGE: &str = "beside traces TRACE.. | beside random SEED CALLS | beside pools SEED POOLS";

/// Small pools run out of frames, large ones have every size of table.
const MOST_FRAMES: [u64; 4] = [4, 64, 1024, 1024];

/// Calls on each random pool.
const CALLS_A_POOL: u64 = 15;

type Compared = Result<(), String>;

fn main() -> ExitCode {
    let words: Vec<String> = std::env::args().skip(1).collect();
    let mut counts = Counts::default();
    match same_letters().and_then(|()| run(&words, &mut counts)) {
        Ok(()) => ExitCode::SUCCESS,
        Err(why) => {
            println!("{why}");
            ExitCode::FAILURE
        }
    }
}

fn same_letters() -> Compared {
    let (has, pinned) = (calls::letters(), library_letters());
    let wrong = format!("the library's calls are {has}, pinned are {pinned}");
    (has == pinned).then_some(()).ok_or(wrong)
}

fn run(words: &[String], counts: &mut Counts) -> Compared {
    let number = |i: usize| words.get(i).and_then(|word| word.parse().ok());
    let mut needless = "";
    match (words.first().map(String::as_str), number(1), number(2)) {
        (Some("traces"), ..) => traces(&words[1..], counts)?,
        (Some("random"), Some(seed), Some(calls)) => random(seed, calls, counts)?,
        (Some("pools"), Some(seed), Some(number)) => {
            pools(seed, number, counts)?;
            // Every pool is of a good number of frames.
            needless = "s 7";
        }
        _ => return Err(USAGE.to_string()),
    }
    println!("{counts}");
    let mut missing = counts.missing(Demand::Library);
    missing.retain(|way| way != needless);
    let wrong = format!("never came: {}", missing.join(", "));
    missing.is_empty().then_some(()).ok_or(wrong)
}

fn traces(paths: &[String], counts: &mut Counts) -> Compared {
    for path in paths {
        let text = std::fs::read(path).map_err(|why| format!("{path}: {why}"))?;
        let mut pair = Pair::default();
        for (number, line) in (1..).zip(oracle::lines::lines(&text)) {
            let differs = |what| format!("{path}, line {number} differs: {what}");
            pair.line(line, counts).map_err(differs)?;
        }
    }
    Ok(())
}

/// Half of them of calls that the library has, half of all calls.
fn random(mut seed: u64, calls: u64, counts: &mut Counts) -> Compared {
    for letters in [&library_letters(), LETTERS] {
        for frames in MOST_FRAMES {
            let name = format!("generate {seed} {} {letters} {frames}", calls / 8);
            let mut generator = Generator::new(seed, letters, frames);
            let mut pair = Pair::default();
            for number in 1..=calls / 8 {
                let line = generator.line(pair.pool());
                let differs = |what| format!("{name}, line {number} differs: {what}");
                pair.line(&line, counts).map_err(differs)?;
            }
            let Counts { calls, notices, .. } = counts;
            println!("{name}: {calls} calls and {notices} notices compared so far");
            seed += 1;
        }
    }
    Ok(())
}

/// On every other pool no new objects and few children, so that the calls meet what it has.
fn pools(seed: u64, number: u64, counts: &mut Counts) -> Compared {
    let letters = ["s", "snk"].map(|without| LETTERS.replace(|l| without.contains(l), ""));
    let mut random = Random::new(seed);
    let mut pair = Pair::default();
    for pool in 0..number {
        pair.put(&sound_pool(&mut random), counts)?;
        let letters = &letters[pool as usize % 2];
        let mut generator = Generator::new(random.number(), letters, 64);
        for call in 1..=CALLS_A_POOL {
            let line = generator.line(pair.pool());
            let place = format!("pools {seed}, pool {pool}, call {call}");
            let differs = |what| format!("{place} differs: {what}");
            pair.line(&line, counts).map_err(differs)?;
        }
    }
    Ok(())
}
