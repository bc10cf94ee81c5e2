//! What an answer of a trace tells of a pool: counts, and hashes of the tables and the memory.

use crate::tables::{mapping, node, View};
use crate::tables::{MAPPING_WORDS, NEXT_OWNER, NODES, NODE_WORDS, PAGE_SIZE, ROW_WORDS};
use std::fmt;

/// H of a row of numbers: from 2,166,136,261 on, for each number x, H × 16,777,619 + x mod 2^32.
#[derive(Clone, Copy, PartialEq, Eq, Debug)]
pub struct H(u32);

const START: u32 = 2_166_136_261;
const FACTOR: u32 = 16_777_619;

/// How many bytes are taken at once: their weights don't wait for each other.
const CHUNK: usize = 32;
const CHUNK_FACTOR: u32 = FACTOR.wrapping_pow(CHUNK as u32);
const WEIGHTS: [u32; CHUNK] = weights();

const fn weights() -> [u32; CHUNK] {
    let mut all = [1; CHUNK];
    let mut i = CHUNK - 1;
    while i > 0 {
        all[i - 1] = FACTOR.wrapping_mul(all[i]);
        i -= 1;
    }
    all
}

impl H {
    /// H of no number.
    pub const EMPTY: H = H(START);

    /// With a number more.
    pub fn number(self, x: u32) -> H {
        H(self.0.wrapping_mul(FACTOR).wrapping_add(x))
    }

    /// With numbers more.
    pub fn numbers(self, row: &[u32]) -> H {
        row.iter().fold(self, |h, x| h.number(*x))
    }

    /// With the numbers of bytes more.
    pub fn bytes(self, bytes: &[u8]) -> H {
        let chunks = bytes.chunks_exact(CHUNK);
        let rest = chunks.remainder();
        let h = chunks.fold(self, H::chunk);
        rest.iter().fold(h, |h, x| h.number(u32::from(*x)))
    }

    fn chunk(self, bytes: &[u8]) -> H {
        let terms = bytes.iter().zip(WEIGHTS);
        let sum = terms.fold(0u32, |sum, (x, weight)| {
            sum.wrapping_add(weight.wrapping_mul(u32::from(*x)))
        });
        H(self.0.wrapping_mul(CHUNK_FACTOR).wrapping_add(sum))
    }

    /// As a number.
    pub fn value(self) -> u32 {
        self.0
    }
}

/// The part of a trace's answer that tells the pool's state. As text: FREE NEXT TREE MAPS MEM.
#[derive(Clone, Copy, PartialEq, Eq, Debug)]
pub struct Report {
    /// Free frames.
    pub free: usize,
    /// The next owner number.
    pub next: u32,
    /// Over the words of the written tree.
    pub tree: H,
    /// Over the mappings, and each object's list of them.
    pub maps: H,
    /// Over the frames in use and their bytes.
    pub memory: H,
}

impl Report {
    /// Of tables that have their lengths.
    pub fn of(pool: View<'_>) -> Report {
        Report {
            free: pool.used.iter().filter(|flag| **flag == 0).count(),
            next: pool.head[NEXT_OWNER],
            tree: (0..NODES).fold(H::EMPTY, |h, n| tree_words(h, pool, n)),
            maps: lists(numbered(H::EMPTY, pool), pool),
            memory: memory(pool),
        }
    }
}

impl fmt::Display for Report {
    fn fmt(&self, f: &mut fmt::Formatter<'_>) -> fmt::Result {
        let (tree, maps, memory) = (self.tree.0, self.maps.0, self.memory.0);
        write!(f, "{} {} {tree} {maps} {memory}", self.free, self.next)
    }
}

/// Words 0 to 74 of a node's block in the written tree: eight of its record, its page entries, and
/// three more of its record.
fn tree_words(h: H, pool: View<'_>, n: usize) -> H {
    const BEFORE: [usize; 7] = [
        node::KIND,
        node::PARENT,
        node::LEFT,
        node::RIGHT,
        node::START,
        node::END,
        node::SIZE,
    ];
    const AFTER: [usize; 3] = [node::OWNER, node::POLICY, node::PINS];
    let record = &pool.nodes[n * NODE_WORDS..][..NODE_WORDS];
    h.number(n as u32)
        .numbers(&BEFORE.map(|place| record[place]))
        .numbers(&pool.pages[n * ROW_WORDS..][..ROW_WORDS])
        .numbers(&AFTER.map(|place| record[place]))
}

/// The live mappings in the order of appending.
fn live<'a>(pool: View<'a>) -> impl Iterator<Item = &'a [u32]> {
    let places = pool.mappings.chunks_exact(MAPPING_WORDS);
    places.filter(|m| m[mapping::NUMBER] != 0)
}

/// The mappings by their numbers: object + 1, first page and pages, or three zeros.
fn numbered(h: H, pool: View<'_>) -> H {
    (1..=crate::MAPPINGS as u32).fold(h, |h, number| {
        let found = live(pool).find(|m| m[mapping::NUMBER] == number);
        h.numbers(&found.map_or([0; 3], |m| {
            [m[mapping::OBJECT] + 1, m[mapping::FIRST], m[mapping::PAGES]]
        }))
    })
}

/// For each node the number of its mappings, and their numbers in the order of appending.
fn lists(h: H, pool: View<'_>) -> H {
    (0..NODES as u32).fold(h, |h, object| {
        let own = live(pool).filter(|m| m[mapping::OBJECT] == object);
        let numbers: Vec<u32> = own.map(|m| m[mapping::NUMBER] - 1).collect();
        h.number(numbers.len() as u32).numbers(&numbers)
    })
}

/// The frames in use, lowest first: the number and the bytes of each.
fn memory(pool: View<'_>) -> H {
    let frames = pool.memory.chunks_exact(PAGE_SIZE as usize);
    let numbered = frames.enumerate().zip(pool.used);
    let in_use = numbered.filter(|(_, flag)| **flag != 0);
    in_use.fold(H::EMPTY, |h, ((frame, bytes), _)| {
        h.number(frame as u32).bytes(bytes)
    })
}
