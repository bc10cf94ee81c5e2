//! Large pools with nearly every frame in use.

use super::{Generator, PAGE};

/// Pages of the largest object.
const MOST_PAGES: u64 = 64;

const STYLE: &str = "g12 c8 w24 W8 r10 h8 f4 k12 K2 m4 u2 n2 l1 z6 t3 x4 e3 d3 y1 i1";

impl Generator {
    /// An episode on a fresh pool that objects of 64 pages fill, up to a few frames, and some
    /// children.
    pub(super) fn begin_full(&mut self) {
        self.set_style(STYLE);
        self.left_in_episode = 5 + self.random.below(25);
        let frames = self.most_frames - self.random.below(self.most_frames / 2);
        self.plan(format!("s {frames}"));
        let objects = frames / MOST_PAGES;
        for object in 0..objects {
            self.plan_filled(object, MOST_PAGES);
        }
        let rest = frames % MOST_PAGES;
        let left_free = self.random.below(16);
        self.plan_filled(objects, rest.saturating_sub(left_free));
        for _ in 0..self.random.below(5) {
            let of = self.random.below(objects + 1);
            self.plan(format!("k {of} 0 {MOST_PAGES}"));
        }
        self.focus = self.random.below(objects + 1);
    }

    /// An object of 64 pages, some of which take a frame.
    fn plan_filled(&mut self, object: u64, pages: u64) {
        let (byte, len) = (self.random.below(256), pages * PAGE);
        self.plan(format!("n {MOST_PAGES}"));
        let line = match self.random.below(3) {
            0 => format!("c {object} 0 {len}"),
            1 => format!("w {object} 0 {byte} {len}"),
            _ => format!("W {object} 0 {byte} {len} 5"),
        };
        self.plan(line);
    }
}
