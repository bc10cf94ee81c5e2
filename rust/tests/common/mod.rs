//! Pools made by hand, for the tests.

// Each test program uses a part.
#![allow(dead_code)]

pub mod ladder;
pub mod random;
pub mod rules;

use goramul::ffi::{self, Answer, Noted, Ranged};
use goramul::tables::node::*;
use goramul::tables::{MAPPING_WORDS, NEXT_OWNER, NODE_WORDS, ROW_WORDS};
use goramul::{Store, Tables};

pub const ORIGIN: u32 = 1;
pub const SNAPSHOT: u32 = 2;
pub const HIDDEN: u32 = 3;

pub const OWNED: u32 = 0;
pub const LEFT_SPLIT: u32 = 1;
pub const RIGHT_SPLIT: u32 = 2;

pub const BAD_POOL: Answer = Answer { code: 7, value: 0 };

type Call = fn(&mut Tables<'_>) -> Answer;

/// Every call that tests the pool and has a code. Peek has none: it shows nothing.
pub const CALLS: [(&str, Call); 10] = [
    ("new", |tables| ffi::new(tables, 1)),
    ("len", |tables| ffi::len(tables.view(), 0)),
    ("append_mapping", |tables| {
        ffi::append_mapping(tables, 0, 0, 1)
    }),
    ("remove_mapping", |tables| ffi::remove_mapping(tables, 0, 0)),
    ("forecast", |tables| ffi::forecast(tables.view(), 0, 0, 0)),
    ("commit_page", |tables| {
        noted(|list| ffi::commit_page(tables, list, 0, 0, true))
    }),
    ("create_child", |tables| {
        noted(|list| ffi::create_child(tables, list, 0, 0, 0))
    }),
    ("read", |tables| read(tables, 0, 0, 1)),
    ("write", |tables| {
        ranged(|list| ffi::write(tables, list, 0, 0, &[1; 5000]))
    }),
    ("commit", |tables| {
        ranged(|list| ffi::commit(tables, list, 0, 0, 8192))
    }),
];

/// A page of zeros, to lend to peek.
pub const ZEROS: [u8; 4096] = [0; 4096];

/// What lists and buffers hold before a call.
const BEFORE: u8 = 0xa5;

/// A call lent a list for 256 notices, of which it may write only those that it counts.
pub fn noted(call: impl FnOnce(&mut [u32]) -> Noted) -> Answer {
    let mut list = [u32::from(BEFORE); 4 * 256];
    let noted = call(&mut list);
    let rest = &list[4 * noted.count as usize..];
    assert!(rest.iter().all(|word| *word == u32::from(BEFORE)));
    assert!(noted.answer.code != 7 || noted.count == 0);
    noted.answer
}

/// The same of a call that takes frames.
pub fn ranged(call: impl FnOnce(&mut [u32]) -> Ranged) -> Answer {
    noted(|list| {
        let Ranged {
            answer,
            taken,
            count,
        } = call(list);
        assert!(answer.code != 7 || taken == 0);
        Noted { answer, count }
    })
}

/// A read of so many bytes, which fills no byte if it is refused.
pub fn read(tables: &mut Tables<'_>, object: u64, offset: u64, len: usize) -> Answer {
    let mut buf = vec![BEFORE; len];
    let answer = ffi::read(tables, object, offset, &mut buf);
    assert!(answer.code == 0 || buf.iter().all(|byte| *byte == BEFORE));
    answer
}

pub fn entry(frame: u32, tag: u32, pins: u32) -> u32 {
    frame + 1 + 4096 * tag + 16384 * pins
}

/// Words of a store, written at their places.
pub trait Draft {
    fn set(&mut self, node: usize, word: usize, value: u32);
    fn put(&mut self, node: usize, page: usize, entry: u32);
    fn map(&mut self, place: usize, mapping: [u32; MAPPING_WORDS]);
    fn next(&mut self, owner: u32);
    /// An entry whose frame is also in use.
    fn hold(&mut self, node: usize, page: usize, frame: u32, tag: u32, pins: u32);
    fn leaf(&mut self, node: usize, kind: u32, size: u32, owner: u32);
    /// A hidden node over two nodes that have no parent yet.
    fn hide(&mut self, node: usize, children: [usize; 2], size: u32, owner: u32);
    fn window(&mut self, node: usize, start: u32, end: u32);
    /// No node, frame or mapping in use.
    fn clear(&mut self);
}

impl Draft for Store {
    fn set(&mut self, node: usize, word: usize, value: u32) {
        self.nodes[node * NODE_WORDS + word] = value;
    }

    fn put(&mut self, node: usize, page: usize, entry: u32) {
        self.pages[node * ROW_WORDS + page] = entry;
    }

    fn map(&mut self, place: usize, mapping: [u32; MAPPING_WORDS]) {
        self.mappings[place * MAPPING_WORDS..][..MAPPING_WORDS].copy_from_slice(&mapping);
    }

    fn next(&mut self, owner: u32) {
        self.head[NEXT_OWNER] = owner;
    }

    fn hold(&mut self, node: usize, page: usize, frame: u32, tag: u32, pins: u32) {
        self.put(node, page, entry(frame, tag, pins));
        self.used[frame as usize] = 1;
    }

    fn leaf(&mut self, node: usize, kind: u32, size: u32, owner: u32) {
        self.set(node, KIND, kind);
        self.set(node, SIZE, size);
        self.set(node, OWNER, owner);
    }

    fn hide(&mut self, node: usize, children: [usize; 2], size: u32, owner: u32) {
        self.leaf(node, HIDDEN, size, owner);
        for (link, child) in [LEFT, RIGHT].into_iter().zip(children) {
            self.set(node, link, child as u32 + 1);
            self.set(child, PARENT, node as u32 + 1);
        }
    }

    fn window(&mut self, node: usize, start: u32, end: u32) {
        self.set(node, START, start);
        self.set(node, END, end);
    }

    fn clear(&mut self) {
        self.nodes.fill(0);
        self.pages.fill(0);
        self.used.fill(0);
        self.mappings.fill(0);
        self.head.fill(0);
        self.next(1);
    }
}

/// A sound pool of 8 frames with something of everything: hidden 4 over hidden 2 (over leaves 0
/// and 1) and leaf 3; a full-size object 5; node 6 free; an empty object 7; two mappings. Frames 6
/// and 7 are free, and the next owner is 7.
pub fn sample() -> Store {
    let mut s = Store::zeros(8);
    s.next(7);
    s.leaf(0, SNAPSHOT, 4, 1);
    s.leaf(1, SNAPSHOT, 4, 2);
    s.leaf(3, SNAPSHOT, 6, 4);
    s.leaf(5, ORIGIN, 64, 5);
    s.leaf(7, ORIGIN, 0, 6);
    s.hide(2, [0, 1], 8, 1);
    s.hide(4, [2, 3], 8, 1);
    s.window(0, 0, 4);
    s.window(1, 1, 3);
    s.window(2, 0, 8);
    s.window(3, 2, 6);
    s.hold(0, 0, 0, OWNED, 3);
    s.hold(0, 3, 1, OWNED, 0);
    s.hold(2, 1, 2, LEFT_SPLIT, 0);
    s.hold(2, 2, 3, RIGHT_SPLIT, 0);
    s.hold(4, 0, 4, OWNED, 0);
    s.hold(5, 63, 5, OWNED, 31);
    s.set(0, PINS, 5);
    s.set(5, PINS, 31);
    s.map(0, [2, 0, 0, 4]);
    s.map(1, [1, 5, 63, 1]);
    for (i, byte) in s.memory.iter_mut().enumerate() {
        *byte = i as u8;
    }
    s
}

/// A tree that is as deep as 64 nodes allow: hidden nodes 0 to `hidden` - 1, each over the next one
/// and a leaf, the last over two leaves.
pub fn chain(s: &mut Store, hidden: usize) {
    s.clear();
    s.next(2);
    for n in hidden..=2 * hidden {
        s.leaf(n, SNAPSHOT, 1, 1);
    }
    for n in 0..hidden {
        let below = if n + 1 < hidden { n + 1 } else { 2 * hidden };
        s.hide(n, [below, hidden + n], 1, 1);
    }
}

/// Hidden nodes in a ring, each over the next one and a leaf: all links are named both ways.
pub fn ring(s: &mut Store, hidden: usize) {
    s.clear();
    s.next(2);
    for n in 0..hidden {
        s.leaf(hidden + n, SNAPSHOT, 1, 1);
        s.hide(n, [(n + 1) % hidden, hidden + n], 1, 1);
    }
}
