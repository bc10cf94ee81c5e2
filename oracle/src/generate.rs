//! Random traces. The generator looks at the pool that answers its lines, so that most calls name
//! live objects and ranges near their ends.

mod arguments;
mod bad_lines;
mod calls;
mod full;
mod recipes;
mod trees;

use crate::pool::{Pool, MOST_NOTICES};
use crate::random::Random;
use calls::Call;
use std::collections::VecDeque;

const PAGE: u64 = 4096;

/// The letters of all calls.
pub const LETTERS: &str = "sanlrwWkKgcmuhfztdiqyepvx";

/// What the calls of an episode are about: letters with weights.
const STYLES: [&str; 7] = [
    // a bit of everything
    "n4 k6 K2 r6 w12 W4 z5 l1 t4 g5 c4 d3 m3 u2 i2 q1 y2 e3 p3 v3 x4 h4 f2 a1",
    // deep trees
    "n1 k30 K3 r8 w20 W4 z6 g6 c4 e3 x5 h6 t2 f2 i1",
    // children grown, cloned and closed
    "n4 k14 K4 t16 w14 W2 r8 z8 c4 g4 x8 h4 e6 d1",
    // mappings
    "n2 k8 m14 u4 w20 z6 g6 c6 x4 y2 i3 r4 a2 t3",
    // pins
    "n2 w6 c6 p30 v20 x4 t4 k3 d4 z4 y3 i1 e1 q2",
    // no node left
    "n40 k20 l6 x2 a2 w12 r4 i1 q1",
    // policies
    "n4 y20 q8 r6 w8 W2 k6 d8 h6 x4 g4 c4 z3 l2 m2 u1",
];

pub struct Generator {
    random: Random,
    /// The letters that good lines may have.
    letters: Vec<u8>,
    most_frames: u64,
    planned: VecDeque<String>,
    style: Vec<(u8, u64)>,
    left_in_episode: u64,
    focus: u64,
}

/// What the words `SEED CALLS [LETTERS [FRAMES]]` ask for; none if they are bad.
pub fn asked(words: &[String]) -> Option<(Generator, u64)> {
    let number = |i: usize| words.get(i).map(|word| word.parse::<u64>().ok());
    let (seed, calls) = (number(0)??, number(1)??);
    let frames = number(3).unwrap_or(Some(1024))?;
    let letters = words.get(2).map_or(LETTERS, String::as_str);
    let known = letters.chars().all(|letter| LETTERS.contains(letter));
    let good = words.len() <= 4 && known && !letters.is_empty() && frames > 0;
    good.then(|| (Generator::new(seed, letters, frames), calls))
}

impl Generator {
    pub fn new(seed: u64, letters: &str, most_frames: u64) -> Self {
        Generator {
            random: Random::new(seed),
            letters: letters.bytes().collect(),
            most_frames,
            planned: VecDeque::new(),
            style: Vec::new(),
            left_in_episode: 0,
            focus: 0,
        }
    }

    /// The next line, for a pool that has answered all lines before.
    pub fn line(&mut self, pool: &Pool) -> Vec<u8> {
        if self.random.one_in(40) {
            return self.bad_line();
        }
        while self.planned.is_empty() {
            if self.left_in_episode == 0 {
                self.begin_episode();
            } else {
                self.left_in_episode -= 1;
                self.plan_step(pool);
            }
        }
        let line = self.planned.pop_front();
        line.expect("a line is planned").into_bytes()
    }

    fn allows(&self, letter: u8) -> bool {
        self.letters.contains(&letter)
    }

    fn plan(&mut self, line: String) {
        if self.allows(line.as_bytes()[0]) {
            self.planned.push_back(line);
        }
    }

    fn begin_episode(&mut self) {
        if self.allows(b'k') && self.random.one_in(4) {
            return self.begin_tree();
        }
        if self.most_frames > 64 && self.random.one_in(64) {
            return self.begin_full();
        }
        let style = self.random.pick(&STYLES);
        self.set_style(style);
        self.left_in_episode = if self.random.one_in(5) {
            20 + self.random.below(230)
        } else {
            5 + self.random.below(40)
        };
        self.focus = 0;
        if self.random.one_in(6) {
            let outside = self
                .random
                .pick(&[0, 1025, 1026, 4096, 1 << 32, 1 << 63, u64::MAX]);
            self.plan(format!("s {outside}"));
        }
        let most = match self.random.below(8) {
            0..=1 => 8,
            2..=5 => 64,
            _ => self.most_frames,
        };
        let frames = 1 + self.random.below(most.min(self.most_frames));
        self.plan(format!("s {frames}"));
    }

    /// The letters of an episode's calls, with weights.
    fn set_style(&mut self, style: &str) {
        let weighted = style.split(' ').map(|word| {
            let weight = word[1..].parse().expect("a weight");
            (word.as_bytes()[0], weight)
        });
        self.style = weighted
            .filter(|(letter, _)| self.allows(*letter))
            .collect();
    }

    fn plan_step(&mut self, pool: &Pool) {
        if pool.state().leaves().is_empty() && self.allows(b'n') && !self.random.one_in(8) {
            let pages = self.pages();
            return self.plan(format!("n {pages}"));
        }
        if self.random.one_in(16) {
            return self.plan_recipe(pool);
        }
        if pool.room() < MOST_NOTICES && self.random.one_in(4) {
            self.plan(format!("a {MOST_NOTICES}"));
        }
        let Some(letter) = self.letter() else {
            return;
        };
        let call = self.call(letter, pool);
        match call.pages {
            Some(pages) if self.random.one_in(3) => self.plan_with_tight_room(&call, pages, pool),
            _ => self.plan(call.line),
        }
    }

    fn letter(&mut self) -> Option<u8> {
        let sum = self.style.iter().map(|(_, weight)| weight).sum();
        if sum == 0 {
            return None;
        }
        let mut left = self.random.below(sum);
        let chosen = self.style.iter().find(|(_, weight)| {
            let here = left < *weight;
            left = left.saturating_sub(*weight);
            here
        });
        chosen.map(|(letter, _)| *letter)
    }

    /// The call once with a notice list one short, and once with just enough.
    fn plan_with_tight_room(&mut self, call: &Call, pages: u64, pool: &Pool) {
        let needed = pages * pool.state().live_mappings() as u64;
        if needed == 0 || needed > MOST_NOTICES {
            return self.plan(call.line.clone());
        }
        self.plan(format!("a {}", needed - 1));
        self.plan(call.line.clone());
        self.plan(format!("a {needed}"));
        self.plan(call.line.clone());
        if !self.random.one_in(4) {
            self.plan(format!("a {MOST_NOTICES}"));
        }
    }
}
