//! Random numbers (xorshift64*), random sound pools and random changes of them.

use super::{entry, Draft, HIDDEN};
use goramul::tables::node::*;
use goramul::tables::{MAPPING_WORDS, NEXT_OWNER, NODE_WORDS, ROW_WORDS};
use goramul::Store;

pub struct Random(u64);

impl Random {
    pub fn new(seed: u64) -> Random {
        // The state must not be 0.
        Random(seed.wrapping_mul(2).wrapping_add(1))
    }

    fn number(&mut self) -> u64 {
        self.0 ^= self.0 >> 12;
        self.0 ^= self.0 << 25;
        self.0 ^= self.0 >> 27;
        self.0.wrapping_mul(0x2545_f491_4f6c_dd1d)
    }

    /// From 0 to n - 1.
    pub fn below(&mut self, n: u64) -> u64 {
        (self.number() >> 11) % n
    }

    pub fn index(&mut self, n: usize) -> usize {
        self.below(n as u64) as usize
    }

    /// From 0 to `most`, and often one of the two.
    pub fn up_to(&mut self, most: u32) -> u32 {
        match self.below(4) {
            0 => 0,
            1 => most,
            _ => self.below(u64::from(most) + 1) as u32,
        }
    }

    pub fn one_in(&mut self, n: u64) -> bool {
        self.below(n) == 0
    }

    fn pick(&mut self, from: &[u32]) -> u32 {
        from[self.index(from.len())]
    }

    fn shuffled(&mut self, n: usize) -> Vec<usize> {
        let mut all: Vec<usize> = (0..n).collect();
        for i in (1..n).rev() {
            let j = self.index(i + 1);
            all.swap(i, j);
        }
        all
    }
}

/// Makes the store a random sound pool. Its memory is left as it is.
pub fn sound_pool(r: &mut Random, s: &mut Store) {
    let frames = if r.one_in(4) { 1024 } else { 16 };
    s.used.resize(1 + r.index(frames), 0);
    s.clear();
    let most = [
        2,
        16_777_216,
        1 + r.below(5) as u32,
        1 + r.below(16_777_216) as u32,
    ];
    s.next(r.pick(&most));
    tree(r, s);
    records(r, s);
    entries(r, s);
    mappings(r, s);
}

fn word(s: &Store, node: usize, word: usize) -> u32 {
    s.nodes[node * NODE_WORDS + word]
}

fn live(s: &Store) -> Vec<usize> {
    (0..64).filter(|n| word(s, *n, KIND) != 0).collect()
}

/// Kinds and links: objects are made, and now and then split into two below a hidden node.
fn tree(r: &mut Random, s: &mut Store) {
    let mut free = r.shuffled(64);
    free.truncate(r.up_to(64) as usize);
    let mut leaves = Vec::new();
    while let Some(fresh) = free.pop() {
        s.set(fresh, KIND, 1 + r.below(2) as u32);
        if let (false, Some(hidden)) = (leaves.is_empty() || r.one_in(4), free.pop()) {
            let leaf = leaves[r.index(leaves.len())];
            split(r, s, leaf, fresh, hidden);
        }
        leaves.push(fresh);
    }
}

/// The hidden node takes the leaf's place.
fn split(r: &mut Random, s: &mut Store, leaf: usize, child: usize, hidden: usize) {
    let parent = word(s, leaf, PARENT);
    for link in [LEFT, RIGHT] {
        if parent > 0 && word(s, parent as usize - 1, link) == leaf as u32 + 1 {
            s.set(parent as usize - 1, link, hidden as u32 + 1);
        }
    }
    let children = if r.one_in(2) {
        [leaf, child]
    } else {
        [child, leaf]
    };
    s.hide(hidden, children, 0, 0);
    s.set(hidden, PARENT, parent);
}

/// Sizes, windows, owners and policies, often at their ends.
fn records(r: &mut Random, s: &mut Store) {
    let next = s.head[NEXT_OWNER];
    let mut starts_left = 64 * (next - 1);
    for n in live(s) {
        let size = r.up_to(64);
        let start = if r.one_in(2) { 0 } else { r.up_to(starts_left) };
        starts_left -= start;
        s.set(n, SIZE, size);
        s.window(n, start, start + r.up_to(size));
        s.set(n, OWNER, r.up_to(next - 1));
        s.set(n, POLICY, r.up_to(3));
    }
}

fn entries(r: &mut Random, s: &mut Store) {
    let mut free = r.shuffled(s.used.len());
    for n in live(s) {
        let hidden = word(s, n, KIND) == HIDDEN;
        let (size, pinned) = (word(s, n, SIZE), !hidden && r.one_in(3));
        let mut sum = 0;
        for _ in 0..r.up_to(size.min(8)) {
            let page = r.up_to(size - 1) as usize;
            let held = s.pages[n * ROW_WORDS + page] != 0;
            let Some(frame) = free.pop().filter(|_| !held) else {
                continue;
            };
            let tag = if hidden { r.up_to(2) } else { 0 };
            let pins = if pinned { r.up_to(31) } else { 0 };
            s.hold(n, page, frame as u32, tag, pins);
            sum += pins;
        }
        let more = if r.one_in(2) {
            0
        } else {
            r.up_to(u32::MAX - sum)
        };
        s.set(n, PINS, sum + more);
    }
}

fn mappings(r: &mut Random, s: &mut Store) {
    let leaves: Vec<usize> = live(s)
        .into_iter()
        .filter(|n| word(s, *n, KIND) != HIDDEN)
        .collect();
    if leaves.is_empty() || r.one_in(3) {
        return;
    }
    let mut numbers = r.shuffled(64);
    numbers.truncate(r.up_to(64) as usize);
    for (place, number) in numbers.into_iter().enumerate() {
        let object = leaves[r.index(leaves.len())] as u32;
        let first = r.up_to(63);
        let pages = 1 + r.up_to(63 - first);
        s.map(place, [number as u32 + 1, object, first, pages]);
    }
}

/// A place of the pool that was changed, and what it held.
pub enum Change {
    Node(usize, u32),
    Entry(usize, u32),
    Flag(usize, u8),
    Mapping(usize, u32),
    Unmapping(usize, [u32; MAPPING_WORDS]),
    Head(usize, u32),
}

/// Changes one word, most often one that matters, or blanks a mapping.
pub fn change(r: &mut Random, s: &mut Store) -> Change {
    match r.below(20) {
        0..=9 => {
            let i = some_node(r, s) * NODE_WORDS + some_word(r);
            Change::Node(i, replace(r, &mut s.nodes, i))
        }
        10..=13 => {
            let i = some_entry(r, s);
            Change::Entry(i, replace_entry(r, &mut s.pages, i))
        }
        14 => {
            let i = r.index(s.used.len());
            let flag = r.pick(&[0, 1, 1, 2, 255]) as u8;
            Change::Flag(i, std::mem::replace(&mut s.used[i], flag))
        }
        15..=16 => {
            let i = some_place(r, s) * MAPPING_WORDS + r.index(MAPPING_WORDS);
            Change::Mapping(i, replace(r, &mut s.mappings, i))
        }
        17 => {
            let place = some_place(r, s);
            let (was, _) = s.mappings[place * MAPPING_WORDS..]
                .split_first_chunk()
                .unwrap();
            let was = *was;
            s.map(place, [0; MAPPING_WORDS]);
            Change::Unmapping(place, was)
        }
        _ => {
            let i = if r.one_in(8) { r.index(4) } else { 0 };
            Change::Head(i, replace(r, &mut s.head, i))
        }
    }
}

/// Takes a change back.
pub fn undo(s: &mut Store, change: Change) {
    match change {
        Change::Node(i, was) => s.nodes[i] = was,
        Change::Entry(i, was) => s.pages[i] = was,
        Change::Flag(i, was) => s.used[i] = was,
        Change::Mapping(i, was) => s.mappings[i] = was,
        Change::Unmapping(place, was) => s.map(place, was),
        Change::Head(i, was) => s.head[i] = was,
    }
}

/// A node, most often a live one.
fn some_node(r: &mut Random, s: &Store) -> usize {
    let live = live(s);
    if live.is_empty() || r.one_in(4) {
        r.index(64)
    } else {
        live[r.index(live.len())]
    }
}

/// A place in a node's record, seldom a spare one.
fn some_word(r: &mut Random) -> usize {
    let spare = r.one_in(16);
    r.index(if spare { NODE_WORDS } else { PINS + 1 })
}

/// A place of the mappings, most often one that is or could be the last.
fn some_place(r: &mut Random, s: &Store) -> usize {
    let mapped = s.mappings.chunks(MAPPING_WORDS).filter(|m| m[0] != 0);
    let live = mapped.count();
    let any = r.one_in(4);
    r.index(if any { 64 } else { 64.min(live + 1) })
}

/// The place of a held entry, if one is met soon, so that held ones are changed as often as absent
/// ones.
fn some_entry(r: &mut Random, s: &Store) -> usize {
    let from = r.index(s.pages.len());
    if r.one_in(2) {
        return from;
    }
    let mut after = s.pages[from..].iter();
    after.position(|word| *word != 0).map_or(from, |i| from + i)
}

/// Puts another word in a place, near the old one or at an edge of some rule; the old one.
fn replace(r: &mut Random, table: &mut [u32], i: usize) -> u32 {
    const EDGES: [u32; 16] = [
        0,
        1,
        2,
        3,
        4,
        63,
        64,
        65,
        4096,
        12288,
        16384,
        524_288,
        16_777_215,
        16_777_216,
        16_777_217,
        u32::MAX,
    ];
    let was = table[i];
    table[i] = match r.below(8) {
        0 => was.wrapping_add(1),
        1 => was.wrapping_sub(1),
        2 => was ^ (1 << r.below(32)),
        3 => r.pick(&EDGES),
        4 => r.below(70) as u32,
        5..=6 => table[r.index(table.len())],
        _ => r.below(1 << 32) as u32,
    };
    was
}

/// The same for an entry, of which often only one part is changed.
fn replace_entry(r: &mut Random, pages: &mut [u32], i: usize) -> u32 {
    let was = pages[i];
    pages[i] = match r.below(4) {
        0 => was & !(3 << 12) | r.up_to(3) << 12,
        1 => was & 0x3fff | r.up_to(32) << 14,
        _ => return replace(r, pages, i),
    };
    was
}

/// A pool of three nodes, two frames and a mapping whose words are all random and small.
pub fn small_words(r: &mut Random, s: &mut Store) {
    s.used.resize(2, 0);
    s.clear();
    s.next(r.below(4) as u32);
    for n in 0..3 {
        // Most free nodes are blank: by chance they would hardly ever be.
        let kind = r.pick(&[0, 1, 2, 3, 3]);
        let most = if kind == 0 && !r.one_in(16) { 0 } else { 3 };
        for word in PARENT..=PINS {
            s.set(n, word, small(r, most));
        }
        s.set(n, KIND, kind);
        let word = entry(small(r, 2), small(r, 3), small(r, 1));
        s.put(n, r.index(2), if r.one_in(4) { word } else { 0 });
    }
    for flag in &mut s.used {
        *flag = small(r, 1) as u8;
    }
    s.map(0, [0; 4].map(|_| small(r, 2)));
}

/// Up to `most`, and most often 0.
fn small(r: &mut Random, most: u32) -> u32 {
    if r.one_in(4) {
        r.up_to(most)
    } else {
        0
    }
}
