//! Traces: each line is a call, answered by one line that tells the whole pool's state.

use crate::hash;
use crate::kernel_hal::mem;
use crate::lines::{byte, fields, TRACE};
use crate::pool::{Answer, Code, Pool};
use std::fmt::Write;

pub const BAD_LINE: &str = "3 0";
const FRAMES_AT_FIRST: u64 = 6;

pub struct Trace {
    pool: Pool,
}

impl Default for Trace {
    fn default() -> Self {
        let pool = Pool::start(FRAMES_AT_FIRST);
        Trace {
            pool: pool.expect("the first pool is small enough"),
        }
    }
}

impl Trace {
    pub fn pool(&self) -> &Pool {
        &self.pool
    }

    pub fn pool_mut(&mut self) -> &mut Pool {
        &mut self.pool
    }

    /// Answers a line, without line end.
    pub fn answer(&mut self, line: &[u8]) -> String {
        match self.call(line) {
            Some(answer) => self.show(&answer),
            None => BAD_LINE.to_string(),
        }
    }

    /// Makes the call of a line; none if the line is bad.
    pub fn call(&mut self, line: &[u8]) -> Option<Answer> {
        let (letter, numbers) = fields(line, TRACE)?;
        let pool = &mut self.pool;
        Some(match (letter, numbers.as_slice()) {
            (b's', &[frames]) => pool.restart(frames),
            (b'a', &[room]) => pool.set_room(room),
            (b'n', &[pages]) => pool.new_object(pages),
            (b'k', &[o, first, count]) => pool.create_child(o, in_bytes(first), in_bytes(count)),
            (b'K', &[o, offset, len]) => pool.create_child(o, offset.into(), len.into()),
            (b'r', &[o, offset, len]) => pool.read(o, offset, len, |b| hash::of_bytes(b).into()),
            (b'w', &[o, offset, b, len]) => pool.write(o, offset, byte(b)?, len, 0),
            (b'W', &[o, offset, b, len, step]) => pool.write(o, offset, byte(b)?, len, step),
            (b'z', &[o, offset, len]) => pool.zero(o, offset, len),
            (b'l', &[o]) => pool.len(o),
            (b't', &[o, len]) => pool.set_len(o, len),
            (b'g', &[o, page, writing @ 0..=1]) => pool.commit_page(o, page, writing == 1),
            (b'c', &[o, offset, len]) => pool.commit(o, offset, len),
            (b'd', &[o, offset, len]) => pool.decommit(o, offset, len),
            (b'm', &[o, first, pages]) => pool.append_mapping(o, first, pages),
            (b'u', &[o, mapping]) => pool.remove_mapping(o, mapping),
            (b'i', &[o]) => pool.info(o),
            (b'q', &[o]) => pool.cache_policy(o),
            (b'y', &[o, policy]) => pool.set_cache_policy(o, policy),
            (b'e', &[o, start, end]) => pool.count(o, start, end),
            (b'p', &[o, offset, len]) => pool.pin(o, offset, len),
            (b'v', &[o, offset, len]) => pool.unpin(o, offset, len),
            (b'x', &[o]) => pool.close(o),
            (b'h', &[o, page]) => peeked(pool.peek(o, page)),
            (b'f', &[o, offset, len]) => pool.forecast(o, offset, len),
            _ => return None,
        })
    }

    fn show(&self, answer: &Answer) -> String {
        let pool = &self.pool;
        let mut text = format!(
            "{} {} {} {} {} {} {} {} {}",
            answer.code as u32,
            answer.value,
            answer.taken,
            mem::free_frames(),
            pool.state().next_owner,
            pool.tree_hash(),
            pool.maps_hash(),
            mem::hash_of_used(),
            answer.notices.len(),
        );
        for n in &answer.notices {
            let op = n.op as u32;
            write!(text, " {} {} {} {op}", n.mapping, n.first, n.pages).expect("text grows");
        }
        text
    }
}

fn in_bytes(pages: u64) -> u128 {
    pages as u128 * 4096
}

/// Peek has no code; its value tells an empty part from a page.
fn peeked(page: Option<Vec<u8>>) -> Answer {
    Answer {
        code: Code::Ok,
        value: page.map_or(0, |bytes| 1 + hash::of_bytes(&bytes) as u64),
        taken: 0,
        notices: Vec::new(),
    }
}
