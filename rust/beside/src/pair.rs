//! The library and the unchanged Rust, answering the same lines.

use crate::calls;
use crate::driver::Driver;
use crate::load::load;
use oracle::coverage::Counts;
use oracle::pool::{Pool, Snapshot};
use oracle::trace::{Trace, BAD_LINE};

/// Only one is alive at a time, as the Rust counts owners for the whole process.
#[derive(Default)]
pub struct Pair {
    library: Driver,
    source: Trace,
}

impl Pair {
    /// The Rust's pool.
    pub fn pool(&self) -> &Pool {
        self.source.pool()
    }

    /// Answers a line by both and counts it, or tells what differs. After a call that the library
    /// doesn't have it goes on from the pool that the Rust has then.
    pub fn line(&mut self, line: &[u8], counts: &mut Counts) -> Result<(), String> {
        let (came, expected) = (self.library.answer(line), self.source.answer(line));
        let letter = line.first().copied().map_or(' ', char::from);
        if expected != BAD_LINE && !calls::letters().contains(letter) {
            load(&mut self.library.pool, self.source.pool());
        } else if came == expected {
            let counted = counts.count(line, &came);
            counted.ok_or_else(|| format!("not an answer: {came}"))?;
        } else {
            let line = String::from_utf8_lossy(line);
            return Err(format!("{line}\n  expected {expected}\n  came     {came}"));
        }
        Ok(())
    }

    /// Puts a pool in both.
    pub fn put(&mut self, pool: &Snapshot, counts: &mut Counts) -> Result<(), String> {
        let start = format!("s {}", pool.memory.len() / 4096);
        self.line(start.as_bytes(), counts)?;
        self.source.pool_mut().rebuild(pool);
        load(&mut self.library.pool, self.source.pool());
        Ok(())
    }
}
