//! Arguments: objects, pages and ranges, most of them near what the pool has.

use super::{Generator, PAGE};
use crate::pool::Pool;
use crate::state::{HIDDEN, KIND, NODES, SIZE};

/// Numbers at which sums and products of 32 or 64 bits would wrap.
pub(super) const EDGES: [u64; 16] = [
    0,
    1,
    PAGE - 1,
    PAGE,
    64 * PAGE,
    64 * PAGE + 1,
    (1 << 32) - PAGE,
    (1 << 32) - 1,
    1 << 32,
    (1 << 52) - 1,
    1 << 52,
    (1 << 63) - 1,
    1 << 63,
    u64::MAX - PAGE + 1,
    u64::MAX - 1,
    u64::MAX,
];

impl Generator {
    /// Mostly a live object, half the time the same one for a while.
    pub(super) fn object(&mut self, pool: &Pool) -> u64 {
        let leaves = pool.state().leaves();
        if leaves.is_empty() || self.random.one_in(16) {
            return self.odd_object(pool);
        }
        if self.random.one_in(8) || !leaves.contains(&(self.focus as usize)) {
            self.focus = self.random.pick(&leaves) as u64;
        }
        if self.random.one_in(2) {
            return self.focus;
        }
        self.random.pick(&leaves) as u64
    }

    /// Likely not a live object: hidden, free, or past all node numbers.
    pub(super) fn odd_object(&mut self, pool: &Pool) -> u64 {
        let is_hidden = |n: &usize| pool.state().nodes[*n][KIND] == HIDDEN;
        let hidden = (0..NODES).find(is_hidden).unwrap_or(63) as u64;
        match self.random.below(6) {
            0 => hidden,
            1 => self.random.below(64),
            2 => 64 + self.focus,
            3 => (1 << 32) + self.focus,
            4 => 64,
            _ => u64::MAX,
        }
    }

    pub(super) fn size(&self, object: u64, pool: &Pool) -> u64 {
        let node = pool.state().nodes.get(object as usize);
        node.map_or(1, |words| words[SIZE] as u64)
    }

    /// A byte range for an object of so many pages.
    pub(super) fn range(&mut self, pages: u64) -> (u64, u64) {
        let size = pages * PAGE;
        let random = &mut self.random;
        match random.below(20) {
            0..=3 => (0, size),
            4..=8 => {
                let first = random.below(pages + 1);
                (first * PAGE, random.below(pages - first + 1) * PAGE)
            }
            9..=12 => (random.below(pages.max(1)) * PAGE, PAGE.min(size)),
            13..=15 => {
                let offset = random.below(size + 1);
                (offset, random.below(size - offset + 1))
            }
            16 => {
                let boundary = random.below(pages + 1) * PAGE;
                let offset = boundary.saturating_sub(random.below(3));
                (offset, 1 + random.below(5))
            }
            17 => (random.pick(&[0, size, size + 1, size + PAGE]), 0),
            18 => {
                let offset = random.below(size + 1);
                (offset, size - offset + 1 + random.below(2) * PAGE)
            }
            _ => (random.pick(&EDGES), random.pick(&EDGES)),
        }
    }

    /// A range of pages, as first and count, for an object of so many pages.
    pub(super) fn page_range(&mut self, pages: u64) -> (u64, u64) {
        let random = &mut self.random;
        match random.below(12) {
            0..=5 => (0, pages),
            6..=9 => {
                let first = random.below(pages + 1);
                (first, random.below(pages - first + 1))
            }
            10 => (random.below(pages + 2), random.below(pages + 2)),
            _ => (
                random.pick(&EDGES),
                random.pick(&[1, 64, 65, 1 << 52, u64::MAX]),
            ),
        }
    }

    /// A number of pages for an object, mostly small.
    pub(super) fn pages(&mut self) -> u64 {
        match self.random.below(16) {
            0 => 0,
            1..=11 => 1 + self.random.below(4),
            12..=13 => self.random.below(17),
            14 => 60 + self.random.below(7),
            _ => self
                .random
                .pick(&[64, 65, 66, 1 << 20, 1 << 32, 1 << 52, u64::MAX]),
        }
    }

    pub(super) fn new_len(&mut self, pages: u64) -> u64 {
        match self.random.below(10) {
            0 => 0,
            1..=3 => (pages + 1) * PAGE,
            4..=5 => pages.saturating_sub(1) * PAGE,
            6 => self.random.below(pages + 1) * PAGE,
            7 => self.random.below(7) * PAGE,
            8 => self
                .random
                .pick(&[64 * PAGE, 65 * PAGE, 100, u64::MAX - PAGE + 1]),
            _ => self.random.pick(&EDGES),
        }
    }
}
