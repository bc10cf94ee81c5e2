//! A pool's tables as numbers: what a trace compares, and what a pool can be rebuilt from.

pub const NODES: usize = 64;
pub const PAGES: usize = 64;
pub const MAPPINGS: usize = 64;
pub const OWNERS_END: u32 = 16_777_216;

/// A node as the words 0 to 74 of a written tree (document 02, Item 11).
pub type Words = [u32; 75];

pub const KIND: usize = 1;
pub const PARENT: usize = 2;
pub const LEFT: usize = 3;
pub const RIGHT: usize = 4;
pub const START: usize = 5;
pub const END: usize = 6;
pub const SIZE: usize = 7;
pub const ENTRIES: usize = 8;
pub const OWNER: usize = 72;
pub const POLICY: usize = 73;
pub const PINS: usize = 74;

pub const FREE: u32 = 0;
pub const ORIGIN: u32 = 1;
pub const SNAPSHOT: u32 = 2;
pub const HIDDEN: u32 = 3;

pub const OWNED: u32 = 0;
pub const LEFT_SPLIT: u32 = 1;
pub const RIGHT_SPLIT: u32 = 2;

/// A page entry taken apart.
#[derive(Clone, Copy, PartialEq, Eq, Debug)]
pub struct Entry {
    pub frame: usize,
    pub tag: u32,
    pub pins: u32,
}

impl Entry {
    pub fn of_word(word: u32) -> Option<Entry> {
        let frame = (word % 4096).checked_sub(1)? as usize;
        let tag = word / 4096 % 4;
        let pins = word / 16384;
        Some(Entry { frame, tag, pins })
    }

    pub fn word(self) -> u32 {
        self.frame as u32 + 1 + 4096 * self.tag + 16384 * self.pins
    }
}

#[derive(Clone, Copy, PartialEq, Eq, Debug)]
pub struct Mapping {
    pub object: usize,
    pub first: usize,
    pub pages: usize,
}

#[derive(Clone, PartialEq, Eq, Debug)]
pub struct State {
    pub nodes: Vec<Words>,
    pub next_owner: u32,
    pub mappings: Vec<Option<Mapping>>,
    /// The mapping numbers of each object, in the order of appending.
    pub lists: Vec<Vec<usize>>,
}

pub fn free_node(number: usize) -> Words {
    let mut words = [0; 75];
    words[0] = number as u32;
    words
}

impl State {
    pub fn fresh() -> State {
        State {
            nodes: (0..NODES).map(free_node).collect(),
            next_owner: 1,
            mappings: vec![None; MAPPINGS],
            lists: vec![Vec::new(); NODES],
        }
    }

    pub fn is_leaf(&self, node: usize) -> bool {
        matches!(self.nodes[node][KIND], ORIGIN | SNAPSHOT)
    }

    pub fn leaves(&self) -> Vec<usize> {
        (0..NODES).filter(|n| self.is_leaf(*n)).collect()
    }

    pub fn parent(&self, node: usize) -> Option<usize> {
        (self.nodes[node][PARENT] as usize).checked_sub(1)
    }

    pub fn entry(&self, node: usize, page: usize) -> Option<Entry> {
        Entry::of_word(self.nodes[node][ENTRIES + page])
    }

    pub fn live_mappings(&self) -> usize {
        self.mappings.iter().flatten().count()
    }

    /// The frame that a read of a leaf's page is served from, with nothing moved; none is the zero
    /// frame. Only the leaf's window and the hidden nodes' sizes bound the way up.
    pub fn frame_read(&self, leaf: usize, page: usize) -> Option<usize> {
        let (mut node, mut page) = (leaf, page);
        loop {
            let words = &self.nodes[node];
            let bound = if words[KIND] == HIDDEN || words[PARENT] == 0 {
                words[SIZE] as usize
            } else {
                (words[END] - words[START]) as usize
            };
            let entry = if page < PAGES {
                self.entry(node, page)
            } else {
                None
            };
            if let Some(entry) = entry {
                return Some(entry.frame);
            }
            if page >= bound {
                return None;
            }
            page += words[START] as usize;
            node = self.parent(node)?;
        }
    }
}
