//! Pools that aren't sound: every call answers 7 and changes nothing.

mod common;

use common::rules::*;
use common::*;
use goramul::ffi::{self, Place};
use goramul::tables::node;
use goramul::tables::node::{END, KIND, LEFT, OWNER, PARENT, POLICY, RIGHT, SIZE};
use goramul::{Pool, Refusal, Store};

type Edit = fn(&mut Store);

/// A rule, an edit of the sample that just keeps it, and one that just breaks it.
#[rustfmt::skip]
const CASES: &[(&str, Edit, Edit)] = &[
    (CHILDREN, |_| {}, |s| { s.set(4, LEFT, 0); s.set(2, PARENT, 0) }),
    (CHILDREN, |_| {}, |s| { s.set(4, RIGHT, 0); s.set(3, PARENT, 0) }),
    (CHILDREN, |s| { s.set(2, LEFT, 2); s.set(2, RIGHT, 1) }, |s| { s.set(2, RIGHT, 1); s.set(1, PARENT, 0) }),
    (CHILDREN, |_| {}, |s| { s.set(2, LEFT, 2); s.set(0, PARENT, 0) }),
    (CHILDREN, |s| { s.hide(6, [5, 7], 0, 1) }, |s| s.set(6, KIND, 3)),
    (CHILDREN, |_| {}, |s| { s.set(2, RIGHT, 7); s.set(1, PARENT, 0) }),
    (CHILDREN, |_| {}, |s| { s.set(2, RIGHT, 8); s.set(1, PARENT, 0) }),
    (CHILDREN, |_| {}, |s| { s.set(2, RIGHT, 4); s.set(1, PARENT, 0) }),
    (CHILDREN, |_| {}, |s| { s.set(2, RIGHT, 3); s.set(1, PARENT, 0) }),
    (CHILDREN, |_| {}, |s| { s.set(2, RIGHT, 65); s.set(1, PARENT, 0) }),
    (CHILDREN, |_| {}, |s| { s.set(2, LEFT, u32::MAX); s.set(0, PARENT, 0) }),
    (CHILDLESS, |_| {}, |s| s.set(5, LEFT, 8)),
    (CHILDLESS, |_| {}, |s| s.set(0, RIGHT, 1)),
    (CHILDLESS, |_| {}, |s| { s.set(5, LEFT, 1); s.set(5, RIGHT, 2) }),
    (PARENTS, |_| {}, |s| s.set(7, PARENT, 6)),
    (PARENTS, |_| {}, |s| s.set(7, PARENT, 7)),
    (PARENTS, |_| {}, |s| s.set(7, PARENT, 8)),
    (PARENTS, |_| {}, |s| s.set(7, PARENT, 64)),
    (PARENTS, |_| {}, |s| s.set(7, PARENT, 65)),
    (PARENTS, |_| {}, |s| s.set(7, PARENT, u32::MAX)),
    (PARENTS, |_| {}, |s| s.set(7, PARENT, 3)),
    (PARENTS, |_| {}, |s| s.set(4, PARENT, 3)),
    (CHAINS, |s| chain(s, 31), |s| ring(s, 32)),
    (CHAINS, |s| chain(s, 1), |s| ring(s, 1)),
    (CHAINS, |s| chain(s, 2), |s| ring(s, 2)),
    (CHAINS, |s| { s.set(2, RIGHT, 0); s.hide(2, [0, 1], 8, 1) }, |s| { s.set(1, PARENT, 0); s.set(2, RIGHT, 5); s.set(4, PARENT, 3) }),
    (ONCE, |s| s.hold(5, 0, 6, OWNED, 0), |s| s.hold(5, 0, 5, OWNED, 0)),
    (ONCE, |s| s.hold(1, 0, 6, OWNED, 0), |s| s.hold(1, 0, 0, OWNED, 0)),
    (ONCE, |s| s.hold(4, 7, 6, OWNED, 0), |s| s.hold(4, 7, 2, LEFT_SPLIT, 0)),
    (ONCE, |s| s.hold(5, 62, 7, OWNED, 0), |s| s.hold(5, 62, 5, OWNED, 0)),
    (IN_USE, |s| s.hold(5, 0, 6, OWNED, 0), |s| s.used[6] = 1),
    (IN_USE, |s| s.hold(5, 0, 7, OWNED, 0), |s| s.used[7] = 1),
    (IN_USE, |s| { s.put(0, 3, 0); s.used[1] = 0 }, |s| s.used[1] = 0),
    (IN_USE, |s| { s.put(0, 0, 0); s.used[0] = 0 }, |s| s.put(0, 0, 0)),
    (LEAF_TAGS, |s| s.put(5, 63, entry(5, OWNED, 31)), |s| s.put(5, 63, entry(5, LEFT_SPLIT, 31))),
    (LEAF_TAGS, |s| s.put(0, 3, entry(1, OWNED, 0)), |s| s.put(0, 3, entry(1, RIGHT_SPLIT, 0))),
    (BELOW_SIZE, |s| s.hold(3, 5, 6, OWNED, 0), |s| s.hold(3, 6, 6, OWNED, 0)),
    (BELOW_SIZE, |s| s.hold(4, 7, 6, OWNED, 0), |s| s.hold(4, 8, 6, OWNED, 0)),
    (BELOW_SIZE, |s| s.set(5, SIZE, 64), |s| s.set(5, SIZE, 63)),
    (BELOW_SIZE, |s| { s.set(7, SIZE, 1); s.hold(7, 0, 6, OWNED, 0) }, |s| s.hold(7, 0, 6, OWNED, 0)),
    (BELOW_SIZE, |_| {}, |s| s.hold(6, 0, 6, OWNED, 0)),
    (BELOW_SIZE, |_| {}, |s| s.hold(63, 63, 7, OWNED, 0)),
    (PINS, |s| { s.hold(5, 0, 6, OWNED, 31); s.set(5, node::PINS, u32::MAX) }, |s| { s.hold(5, 0, 6, OWNED, 32); s.set(5, node::PINS, u32::MAX) }),
    (PINS, |s| { s.put(5, 63, 6 + 16384); s.set(5, node::PINS, u32::MAX) }, |s| { s.put(5, 63, 6 + 524_288); s.set(5, node::PINS, u32::MAX) }),
    (PINS, |_| {}, |s| { s.put(5, 63, 6 + (1 << 31)); s.set(5, node::PINS, u32::MAX) }),
    (HIDDEN_PINS, |s| s.set(4, node::PINS, 1), |s| { s.set(4, node::PINS, 1); s.put(4, 0, entry(4, OWNED, 1)) }),
    (HIDDEN_PINS, |s| s.set(2, node::PINS, u32::MAX), |s| { s.set(2, node::PINS, u32::MAX); s.put(2, 1, entry(2, LEFT_SPLIT, 31)) }),
    (PIN_SUM, |s| s.set(0, node::PINS, 3), |s| s.set(0, node::PINS, 2)),
    (PIN_SUM, |s| s.set(5, node::PINS, u32::MAX), |s| s.set(5, node::PINS, 30)),
    (PIN_SUM, |s| { s.put(0, 3, entry(1, OWNED, 2)); s.set(0, node::PINS, 5) }, |s| { s.put(0, 3, entry(1, OWNED, 3)); s.set(0, node::PINS, 5) }),
    (PIN_SUM, |s| s.set(7, node::PINS, 0), |s| { s.put(0, 3, entry(1, OWNED, 1)); s.set(0, node::PINS, 0) }),
    (NEXT, |s| s.next(16_777_216), |s| s.next(16_777_217)),
    (NEXT, |s| s.clear(), |s| { s.clear(); s.next(0) }),
    (NEXT, |s| s.next(16_777_215), |s| s.next(u32::MAX)),
    (OWNERS, |s| s.set(5, OWNER, 6), |s| s.set(5, OWNER, 7)),
    (OWNERS, |s| s.set(4, OWNER, 6), |s| s.set(4, OWNER, 7)),
    (OWNERS, |s| s.set(0, OWNER, 0), |s| s.set(0, OWNER, u32::MAX)),
    (OWNERS, |s| { s.clear(); s.leaf(63, ORIGIN, 1, 0) }, |s| { s.clear(); s.leaf(63, ORIGIN, 1, 1) }),
    (STARTS, |s| s.window(3, 383, 389), |s| s.window(3, 384, 390)),
    (STARTS, |s| s.window(4, 381, 381), |s| s.window(4, 382, 382)),
    (STARTS, |s| { s.next(16_777_216); s.window(3, 64 * 16_777_215 - 1, 64 * 16_777_215) }, |s| { s.next(16_777_216); s.window(3, 64 * 16_777_215, 64 * 16_777_215) }),
    (STARTS, |_| {}, |s| { s.window(5, 1 << 31, 1 << 31); s.window(7, 1 << 31, 1 << 31) }),
    (STARTS, |s| { s.clear(); s.leaf(0, ORIGIN, 1, 0) }, |s| { s.clear(); s.leaf(0, ORIGIN, 1, 0); s.window(0, 1, 1) }),
    (WINDOW, |s| s.window(1, 3, 3), |s| s.window(1, 4, 3)),
    (WINDOW, |s| s.window(4, 1, 1), |s| s.window(4, 1, 0)),
    (WINDOW_SIZE, |s| s.window(1, 1, 5), |s| s.window(1, 1, 6)),
    (WINDOW_SIZE, |s| s.window(7, 9, 9), |s| s.window(7, 9, 10)),
    (WINDOW_SIZE, |s| s.window(2, 0, 8), |s| s.window(2, 0, 9)),
    (WINDOW_SIZE, |s| s.window(5, 0, 64), |s| s.window(5, 1, u32::MAX)),
    (SIZES, |s| s.set(7, SIZE, 64), |s| s.set(7, SIZE, 65)),
    (SIZES, |s| s.set(4, SIZE, 64), |s| s.set(4, SIZE, 65)),
    (SIZES, |s| s.set(1, SIZE, 64), |s| s.set(1, SIZE, u32::MAX)),
    (POLICIES, |s| s.set(5, POLICY, 3), |s| s.set(5, POLICY, 4)),
    (POLICIES, |s| s.set(4, POLICY, 3), |s| s.set(4, POLICY, 4)),
    (POLICIES, |s| s.set(0, POLICY, 1), |s| s.set(0, POLICY, u32::MAX)),
    (MAPPED_LEAF, |s| s.map(0, [2, 7, 0, 4]), |s| s.map(0, [2, 6, 0, 4])),
    (MAPPED_LEAF, |s| s.map(1, [1, 1, 0, 4]), |s| s.map(1, [1, 2, 0, 4])),
    (MAPPED_LEAF, |s| { s.leaf(63, ORIGIN, 0, 0); s.map(2, [3, 63, 0, 1]) }, |s| s.map(2, [3, 64, 0, 1])),
    (MAPPED_LEAF, |_| {}, |s| s.map(2, [3, u32::MAX, 0, 1])),
    (MAPPED_PAGES, |s| s.map(0, [2, 0, 0, 1]), |s| s.map(0, [2, 0, 0, 0])),
    (MAPPED_PAGES, |s| s.map(1, [1, 5, 63, 1]), |s| s.map(1, [1, 5, 64, 0])),
    (MAPPED_END, |s| s.map(0, [2, 0, 0, 64]), |s| s.map(0, [2, 0, 0, 65])),
    (MAPPED_END, |s| s.map(0, [2, 0, 60, 4]), |s| s.map(0, [2, 0, 60, 5])),
    (MAPPED_END, |s| s.map(1, [1, 5, 63, 1]), |s| s.map(1, [1, 5, 64, 1])),
    (MAPPED_END, |_| {}, |s| s.map(0, [2, 0, u32::MAX, 1])),
    (MAPPED_END, |_| {}, |s| s.map(0, [2, 0, 1, u32::MAX])),
    (KINDS, |s| s.set(7, KIND, 2), |s| s.set(7, KIND, 4)),
    (KINDS, |s| s.set(0, KIND, 1), |s| { s.set(0, KIND, u32::MAX); s.map(0, [2, 1, 0, 4]) }),
    (BLANK, |s| s.leaf(6, ORIGIN, 0, 0), |s| s.set(6, PARENT, 3)),
    (BLANK, |_| {}, |s| s.set(6, LEFT, 1)),
    (BLANK, |_| {}, |s| s.set(6, RIGHT, 1)),
    (BLANK, |_| {}, |s| s.set(6, END, 1)),
    (BLANK, |s| { s.leaf(6, ORIGIN, 1, 0); s.window(6, 1, 2) }, |s| s.window(6, 1, 2)),
    (BLANK, |s| s.leaf(6, ORIGIN, 1, 0), |s| s.set(6, SIZE, 1)),
    (BLANK, |s| s.leaf(6, ORIGIN, 0, 1), |s| s.set(6, OWNER, 1)),
    (BLANK, |_| {}, |s| s.set(6, POLICY, 1)),
    (BLANK, |_| {}, |s| s.set(6, node::PINS, 1)),
    (BLANK, |_| {}, |s| s.set(63, OWNER, 1)),
    (FRAMES, |s| s.hold(5, 0, 7, OWNED, 0), |s| s.put(5, 0, entry(8, OWNED, 0))),
    (FRAMES, |_| {}, |s| s.put(5, 0, entry(1023, OWNED, 0))),
    (FRAMES, |_| {}, |s| s.put(5, 0, entry(1024, OWNED, 0))),
    (FRAMES, |_| {}, |s| s.put(5, 0, entry(4094, OWNED, 0))),
    (FRAMES, |_| {}, |s| s.put(4, 1, 4096)),
    (FRAMES, |_| {}, |s| { s.put(5, 0, 16384); s.set(5, node::PINS, u32::MAX) }),
    (TAGS, |s| s.put(4, 0, entry(4, 2, 0)), |s| s.put(4, 0, entry(4, 3, 0))),
    (TAGS, |s| s.put(2, 1, entry(2, 0, 0)), |s| s.put(2, 1, entry(2, 3, 0))),
    (FLAGS, |s| s.used[0] = 1, |s| s.used[0] = 2),
    (FLAGS, |s| s.used[6] = 0, |s| s.used[6] = 2),
    (FLAGS, |s| s.used[7] = 0, |s| s.used[7] = 255),
    (NUMBERS, |s| s.map(0, [64, 0, 0, 4]), |s| s.map(0, [65, 0, 0, 4])),
    (NUMBERS, |s| s.map(1, [3, 5, 63, 1]), |s| s.map(1, [2, 5, 63, 1])),
    (NUMBERS, |s| s.map(2, [3, 0, 0, 4]), |s| s.map(2, [2, 0, 0, 4])),
    (NUMBERS, |_| {}, |s| s.map(0, [u32::MAX, 0, 0, 4])),
    (FREE_PLACE, |s| s.map(2, [3, 5, 0, 1]), |s| s.map(2, [0, 5, 0, 0])),
    (FREE_PLACE, |s| s.map(2, [0, 0, 0, 0]), |s| s.map(2, [0, 0, 1, 0])),
    (FREE_PLACE, |_| {}, |s| s.map(63, [0, 0, 0, 1])),
    (NO_GAP, |s| s.map(2, [3, 0, 0, 1]), |s| s.map(3, [3, 0, 0, 1])),
    (NO_GAP, |s| s.map(1, [0, 0, 0, 0]), |s| s.map(0, [0, 0, 0, 0])),
    (NO_GAP, |s| full(s), |s| { full(s); s.map(62, [0, 0, 0, 0]) }),
    (NO_GAP, |s| { full(s); s.map(63, [0, 0, 0, 0]) }, |s| s.map(63, [64, 0, 0, 1])),
];

/// All 64 mappings live.
fn full(s: &mut Store) {
    for place in 0..64 {
        s.map(place, [64 - place as u32, 0, 0, 1]);
    }
}

#[test]
fn every_rule_is_tested_on_both_sides() {
    for (i, (rule, keeps, breaks)) in CASES.iter().enumerate() {
        let name = format!("case {i}: {rule}");
        let (mut kept, mut damaged) = (sample(), sample());
        keeps(&mut kept);
        breaks(&mut damaged);
        is_accepted(kept, &name);
        assert!(broken(damaged.view()).contains(rule), "{name}");
        is_refused(damaged, &name);
    }
}

#[test]
fn no_rule_lacks_a_case() {
    for (rule, _) in RULES {
        let alone = |edit: &Edit| {
            let mut s = sample();
            edit(&mut s);
            broken(s.view()) == [rule]
        };
        let mut cases = CASES.iter().filter(|(name, _, _)| *name == rule);
        assert!(cases.any(|(_, _, breaks)| alone(breaks)), "{rule}");
    }
}

fn is_accepted(mut s: Store, name: &str) {
    assert_eq!(broken(s.view()), [""; 0], "{name}");
    assert!(ffi::is_sound(s.view()), "{name}");
    for (call, make) in CALLS {
        assert_ne!(make(&mut s.lend()).code, 7, "{name}: {call}");
        assert_eq!(broken(s.view()), [""; 0], "{name}: {call}");
        assert!(ffi::is_sound(s.view()), "{name}: {call}");
    }
}

fn is_refused(mut s: Store, name: &str) {
    let before = s.clone();
    assert!(!ffi::is_sound(s.view()), "{name}");
    for (call, make) in CALLS {
        assert_eq!(make(&mut s.lend()), BAD_POOL, "{name}: {call}");
        assert!(s == before, "{name}: {call}");
    }
    for object in 0..64 {
        let place = ffi::peek(s.view(), &ZEROS, object, 0);
        assert_eq!(place, Place::Nowhere, "{name}: peek");
    }
}

#[test]
fn rings_of_every_length_are_refused() {
    for hidden in 1..=32 {
        let mut s = sample();
        ring(&mut s, hidden);
        assert_eq!(broken(s.view()), [CHAINS]);
        is_refused(s, &format!("a ring of {hidden}"));
    }
}

#[test]
fn chains_of_every_length_are_accepted() {
    for hidden in 1..=31 {
        let mut s = sample();
        chain(&mut s, hidden);
        is_accepted(s, &format!("a chain of {hidden}"));
    }
}

/// Spare words and page bytes are no part of soundness.
#[test]
fn spare_words_and_bytes_are_not_read() {
    let mut s = sample();
    for n in 0..64 {
        (node::PINS + 1..16).for_each(|word| s.set(n, word, u32::MAX));
    }
    s.head[1..].fill(u32::MAX);
    s.memory.fill(255);
    is_accepted(s, "spare words");
}

/// A table's name, and how its length is changed.
#[rustfmt::skip]
const LENGTHS_OFF: &[(&str, Edit)] = &[
    ("nodes empty", |s| s.nodes.clear()),
    ("nodes one short", |s| s.nodes.truncate(1023)),
    ("nodes one long", |s| s.nodes.push(0)),
    ("nodes a record short", |s| s.nodes.truncate(1008)),
    ("nodes a record long", |s| s.nodes.resize(1040, 0)),
    ("pages empty", |s| s.pages.clear()),
    ("pages one short", |s| s.pages.truncate(4095)),
    ("pages one long", |s| s.pages.push(0)),
    ("pages a row short", |s| s.pages.truncate(4032)),
    ("pages a row long", |s| s.pages.resize(4160, 0)),
    ("used empty", |s| s.used.clear()),
    ("used one short", |s| s.used.truncate(7)),
    ("used one long", |s| s.used.push(0)),
    ("mappings empty", |s| s.mappings.clear()),
    ("mappings one short", |s| s.mappings.truncate(255)),
    ("mappings one long", |s| s.mappings.push(0)),
    ("mappings a place short", |s| s.mappings.truncate(252)),
    ("mappings a place long", |s| s.mappings.resize(260, 0)),
    ("head empty", |s| s.head.clear()),
    ("head one short", |s| s.head.truncate(3)),
    ("head one long", |s| s.head.push(0)),
    ("memory empty", |s| s.memory.clear()),
    ("memory a byte short", |s| s.memory.truncate(8 * 4096 - 1)),
    ("memory a byte long", |s| s.memory.push(0)),
    ("memory a page short", |s| s.memory.truncate(7 * 4096)),
    ("memory a page long", |s| s.memory.resize(9 * 4096, 0)),
    ("no frame", |s| { s.clear(); s.used.clear(); s.memory.clear() }),
    ("1,025 frames", |s| { s.used.resize(1025, 0); s.memory.resize(1025 * 4096, 0) }),
    ("all empty", |s| { *s = Store { nodes: vec![], pages: vec![], used: vec![], mappings: vec![], head: vec![], memory: vec![] } }),
];

#[test]
fn wrong_lengths_are_refused_by_every_call() {
    for (name, edit) in LENGTHS_OFF {
        let mut s = sample();
        edit(&mut s);
        assert_eq!(broken(s.view()), [LENGTHS], "{name}");
        let before = s.clone();
        assert_eq!(ffi::start(&mut s.lend()), BAD_POOL, "{name}");
        assert!(s == before, "{name}: start");
        is_refused(s, name);
    }
}

#[test]
fn the_fewest_and_the_most_frames_are_accepted() {
    for frames in [1, 2, 1023, 1024] {
        let mut s = Store::zeros(frames);
        assert_eq!(ffi::start(&mut s.lend()).code, 0);
        s.leaf(0, ORIGIN, 1, 0);
        s.hold(0, 0, frames as u32 - 1, OWNED, 0);
        is_accepted(s, &format!("{frames} frames"));
    }
}

/// Damage through a pool's own tables, as a caller would do it.
#[test]
fn a_pool_damaged_in_use_is_refused_until_started_again() {
    let mut pool = Pool::start(6).unwrap();
    let object = pool.new(1).unwrap();
    pool.tables().used[5] = 1;
    assert!(!pool.is_sound());
    assert_eq!(pool.new(1), Err(Refusal::BadPool));
    assert_eq!(pool.len(object), Err(Refusal::BadPool));
    pool.restart().unwrap();
    assert!(pool.is_sound());
    assert_eq!(pool.len(object), Err(Refusal::NoObject));
}
