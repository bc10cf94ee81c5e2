//! Single calls.

use super::{Generator, PAGE};
use crate::pool::Pool;

/// A line, and how many pages a call in range would touch, for the notices that it needs.
pub(super) struct Call {
    pub(super) line: String,
    pub(super) pages: Option<u64>,
}

impl Generator {
    pub(super) fn call(&mut self, letter: u8, pool: &Pool) -> Call {
        let o = self.object(pool);
        let pages = self.size(o, pool);
        match letter {
            b'n' => plain(format!("n {}", self.pages())),
            b'a' => {
                let random = self.random.below(5000);
                plain(format!(
                    "a {}",
                    self.random.pick(&[0, 1, 64, random, 4096, 4097, 1 << 32])
                ))
            }
            b'w' | b'W' => self.write_call(letter, o, pages),
            b'r' | b'z' | b'c' | b'd' | b'p' | b'v' | b'f' => self.range_call(letter, o, pages),
            b'k' | b'K' => self.child_call(letter, o, pages),
            b'g' => {
                let page = self.page(pages);
                let writing = self.random.below(3).min(1);
                Call {
                    line: format!("g {o} {page} {writing}"),
                    pages: Some(1),
                }
            }
            b'h' => plain(format!("h {o} {}", self.page(pages))),
            b't' => plain(format!("t {o} {}", self.new_len(pages))),
            b'm' => {
                let (first, count) = self.page_range(pages.max(1));
                let count = if self.random.one_in(3) {
                    64 - first.min(64)
                } else {
                    count
                };
                plain(format!("m {o} {first} {count}"))
            }
            b'u' => {
                let list = pool.state().lists.get(o as usize);
                let own = list
                    .filter(|l| !l.is_empty())
                    .map(|l| self.random.pick(l) as u64);
                let other = [self.random.below(64), 64, u64::MAX];
                let mapping = own.filter(|_| !self.random.one_in(4));
                plain(format!(
                    "u {o} {}",
                    mapping.unwrap_or(self.random.pick(&other))
                ))
            }
            b'y' => {
                let policy = self.random.pick(&[0, 0, 0, 1, 2, 3, 4, u64::MAX]);
                plain(format!("y {o} {policy}"))
            }
            b'e' => {
                let start = self.random.below(pages + 2);
                let end = self
                    .random
                    .pick(&[pages, pages, start, start + 1, pages + 1]);
                let start = self.random.pick(&[0, start, 1 << 32]);
                plain(format!("e {o} {start} {end}"))
            }
            _ => plain(format!("{} {o}", letter as char)),
        }
    }

    fn page(&mut self, pages: u64) -> u64 {
        if self.random.one_in(12) {
            return self
                .random
                .pick(&[pages, pages + 1, 64, 1 << 32, 1 << 52, u64::MAX]);
        }
        self.random.below(pages.max(1))
    }

    fn range_call(&mut self, letter: u8, o: u64, pages: u64) -> Call {
        let (offset, len) = self.range(pages);
        Call {
            line: format!("{} {o} {offset} {len}", letter as char),
            pages: match letter {
                b'z' => touched(offset, len, pages),
                b'c' => touched(offset, len, pages).map(|_| len / PAGE),
                _ => None,
            },
        }
    }

    fn write_call(&mut self, letter: u8, o: u64, pages: u64) -> Call {
        let (offset, len) = self.range(pages);
        let byte = self.random.below(256);
        let line = if letter == b'w' {
            format!("w {o} {offset} {byte} {len}")
        } else {
            let small = self.random.below(256);
            let step = self.random.pick(&[1, 255, small, (1 << 32) - 1, u64::MAX]);
            format!("W {o} {offset} {byte} {len} {step}")
        };
        Call {
            line,
            pages: touched(offset, len, pages),
        }
    }

    fn child_call(&mut self, letter: u8, o: u64, pages: u64) -> Call {
        let (first, count) = self.page_range(pages);
        let line = if letter == b'k' {
            format!("k {o} {first} {count}")
        } else if self.random.one_in(4) {
            let (offset, len) = self.range(pages);
            format!("K {o} {offset} {len}")
        } else {
            format!(
                "K {o} {} {}",
                first.wrapping_mul(PAGE),
                count.wrapping_mul(PAGE)
            )
        };
        Call {
            line,
            pages: Some(1),
        }
    }
}

fn plain(line: String) -> Call {
    Call { line, pages: None }
}

/// The pages that a range touches; none if it lies outside an object of so many pages.
fn touched(offset: u64, len: u64, pages: u64) -> Option<u64> {
    let end = offset.checked_add(len).filter(|end| *end <= pages * PAGE)?;
    (len > 0).then(|| end.div_ceil(PAGE) - offset / PAGE)
}
