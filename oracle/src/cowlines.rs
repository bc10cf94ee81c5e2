//! The program `cowlines` of document 01: a pool of 6 frames, answers of a code and a value.

use crate::lines::{byte, fields, COWLINES};
use crate::pool::{Answer, Pool};

const FRAMES: u64 = 6;

pub struct Cowlines {
    pool: Pool,
}

impl Default for Cowlines {
    fn default() -> Self {
        Cowlines {
            pool: Pool::start(FRAMES).expect("6 frames are a pool"),
        }
    }
}

impl Cowlines {
    /// Answers a line, without line end.
    pub fn answer(&mut self, line: &[u8]) -> String {
        let answer = self.call(line);
        answer.map_or("3 0".to_string(), |a| {
            format!("{} {}", a.code as u32, a.value)
        })
    }

    fn call(&mut self, line: &[u8]) -> Option<Answer> {
        let (letter, numbers) = fields(line, COWLINES)?;
        let pool = &mut self.pool;
        Some(match (letter, numbers.as_slice()) {
            (b'n', &[pages]) => pool.new_object(pages),
            (b'k', &[o, first, count]) => {
                pool.create_child(o, first as u128 * 4096, count as u128 * 4096)
            }
            (b'w', &[o, offset, b, len]) => pool.write(o, offset, byte(b)?, len, 0),
            (b'r', &[o, offset, len]) => pool.read(o, offset, len, sum),
            (b'z', &[o, offset, len]) => pool.zero(o, offset, len),
            _ => return None,
        })
    }
}

fn sum(bytes: &[u8]) -> u64 {
    bytes.iter().map(|byte| *byte as u64).sum()
}
