//! Trees up to 31 deep, with frames, windows and mappings at every height, in pools that run out of
//! frames at every point of a path.

use super::recipes::Member;
use super::{Generator, PAGE};
use crate::pool::MOST_NOTICES;

/// The most children that one object and its children can have: each takes two of 64 nodes.
const MOST_CHILDREN: u64 = 31;

const STYLE: &str = "g20 c12 w24 W8 r8 h8 f2 k4 K2 m4 u3 n1 l1 a1 z8 t3 x3 e3 d1 y1 i1 p1 v1";

/// Which member the next child is made of: the child before, the first object, or any.
#[derive(Clone, Copy)]
enum Shape {
    Newest,
    First,
    Any,
}

impl Generator {
    /// An episode on a fresh pool with one tree.
    pub(super) fn begin_tree(&mut self) {
        self.set_style(STYLE);
        self.left_in_episode = 5 + self.random.below(40);
        let pages = 1 + self.random.below(4);
        let some = 1 + self.random.below(MOST_CHILDREN);
        let children = self.random.pick(&[MOST_CHILDREN, some]);
        // From none to one more than a path of copies through all hidden nodes takes.
        let frames = match self.random.below(4) {
            0 => 1 + self.random.below(self.most_frames),
            _ => pages + self.random.below(children + 2),
        };
        self.plan(format!("s {}", frames.min(self.most_frames)));
        self.plan(format!("n {pages}"));
        self.plan(format!("W 0 0 1 {} 1", pages * PAGE));
        self.plan_children(pages, children as usize);
    }

    /// In a fresh pool the numbers are known: the child's is the lowest free one, its hidden node's
    /// the next.
    fn plan_children(&mut self, pages: u64, children: usize) {
        let shape = self.random.pick(&[Shape::Newest, Shape::First, Shape::Any]);
        let (mapped, written) = (!self.random.one_in(3), self.random.one_in(4));
        let mut members = vec![Member { object: 0, pages }];
        let mut mappings = 0;
        for child in 1..=children {
            let of = self.member(shape, &members);
            let (first, pages) = self.window(of.pages);
            let object = 2 * child - 1;
            self.plan(format!("k {} {first} {pages}", of.object));
            members.push(Member { object, pages });
            if mapped && !self.random.one_in(3) {
                let (first, count) = self.window(pages);
                self.plan(format!("m {object} {first} {count}"));
                mappings += 1;
            }
            if written && self.random.one_in(4) {
                let Member { object, pages } = self.random.pick(&members);
                let at = self.random.below(pages) * PAGE;
                self.plan(format!("w {object} {at} {child} {PAGE}"));
            }
        }
        let deepest = self.member(shape, &members);
        self.focus = deepest.object as u64;
        for page in 0..deepest.pages {
            self.plan_reach(deepest.object, page, mappings);
        }
    }

    fn member(&mut self, shape: Shape, members: &[Member]) -> Member {
        match shape {
            Shape::Newest => members[members.len() - 1],
            Shape::First => members[0],
            Shape::Any => self.random.pick(members),
        }
    }

    /// First page and pages of a part that isn't empty; mostly the whole.
    fn window(&mut self, pages: u64) -> (u64, u64) {
        if !self.random.one_in(12) {
            return (0, pages);
        }
        let first = self.random.below(pages);
        (first, 1 + self.random.below(pages - first))
    }

    /// The first write of a page, whose way up is still long; now and then first with a notice list
    /// one short.
    fn plan_reach(&mut self, object: usize, page: u64, mappings: u64) {
        let at = page * PAGE;
        let line = match self.random.below(4) {
            0 => format!("g {object} {page} 1"),
            1 => format!("c {object} {at} {PAGE}"),
            2 => format!("w {object} {at} 200 {PAGE}"),
            _ => format!("W {object} {} 100 9 3", at + 7),
        };
        if mappings > 0 && self.random.one_in(3) {
            self.plan(format!("a {}", mappings - 1));
            self.plan(line.clone());
            self.plan(format!("a {mappings}"));
            self.plan(line);
            return self.plan(format!("a {MOST_NOTICES}"));
        }
        self.plan(line);
    }
}
