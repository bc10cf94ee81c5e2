//! create_child: its refusals in order, what it makes, and what it tells.

mod common;

use common::ladder::{climb, Case, Step};
use common::*;
use goramul::ffi;
use goramul::tables::node;
use goramul::{Mapping, Notice, Notices, Object, Operation, Pool, Refusal, PAGE_SIZE};

const STEPS: [Step; 11] = [
    (Refusal::BadPool, |c| c.store.used[7] = 0),
    (Refusal::NoObject, |c| c.object = 3),
    (Refusal::InvalidArgs, |c| c.offset = 2 * PAGE_SIZE),
    (Refusal::InvalidArgs, |c| c.len = 65 * PAGE_SIZE),
    (Refusal::InvalidArgs, |c| c.len = 5 * PAGE_SIZE),
    (Refusal::BadState, |c| c.store.set(3, node::POLICY, 0)),
    (Refusal::BadState, |c| c.store.set(3, node::PINS, 0)),
    (Refusal::OutOfRange, |c| c.len = 4 * PAGE_SIZE),
    (Refusal::NoNode, |c| c.store.next(16_777_215)),
    (Refusal::NoNode, |c| free(c, 10)),
    (Refusal::NoRoom, |c| c.room = 2),
];

fn free(c: &mut Case, node: usize) {
    c.store.leaf(node, 0, 0, 0);
}

/// All nodes but 63 are live, and all owner numbers given.
#[test]
fn refusals_come_in_order() {
    let mut store = sample();
    for n in (0..63).filter(|n| *n == 6 || *n > 7) {
        store.leaf(n, ORIGIN, 0, 0);
    }
    store.used[7] = 1;
    store.set(3, node::POLICY, 1);
    store.set(3, node::PINS, 1);
    store.next(16_777_216);
    let mut case = Case {
        store,
        object: 2,
        offset: 1,
        len: 1,
        room: 1,
    };
    let call = |c: &mut Case| {
        let mut list = c.list();
        ffi::create_child(&mut c.store.lend(), &mut list, c.object, c.offset, c.len).answer
    };
    climb(&mut case, call, &STEPS);
    let record = |n: usize| &case.store.nodes[n * 16..][..10];
    // The child has the lowest free number, its hidden node the next.
    assert_eq!(record(10), [2, 64, 0, 0, 2, 6, 4, 16_777_215, 0, 0]);
    assert_eq!(record(63), [3, 5, 4, 11, 2, 6, 6, 4, 0, 0]);
    assert_eq!(record(3), [2, 64, 0, 0, 0, 6, 6, 4, 0, 0]);
}

#[test]
fn no_sum_wraps() {
    let mut pool = Pool::start(1).unwrap();
    let object = pool.new(64).unwrap();
    let mut list = Notices::with_room(0);
    let last = u64::MAX - PAGE_SIZE + 1;
    for (offset, len, why) in [
        (last, PAGE_SIZE, Refusal::OutOfRange),
        (last, 0, Refusal::OutOfRange),
        (last, 64 * PAGE_SIZE, Refusal::OutOfRange),
        (1 << 32, PAGE_SIZE, Refusal::OutOfRange),
        (65 * PAGE_SIZE, 0, Refusal::OutOfRange),
        (0, last, Refusal::InvalidArgs),
        (0, 1 << 32, Refusal::InvalidArgs),
        (u64::MAX, u64::MAX, Refusal::InvalidArgs),
    ] {
        let refused = pool.create_child(object, offset, len, &mut list);
        assert_eq!(refused, Err(why), "{offset} {len}");
    }
    let end = pool.create_child(object, 64 * PAGE_SIZE, 0, &mut list);
    assert_eq!(end.map(|child| pool.len(child)), Ok(Ok(0)));
}

#[test]
fn the_32nd_child_has_no_node() {
    let mut pool = Pool::start(1).unwrap();
    let object = pool.new(1).unwrap();
    let mut list = Notices::with_room(0);
    for number in 0..31 {
        let child = pool.create_child(object, 0, PAGE_SIZE, &mut list).unwrap();
        assert_eq!(child.number(), 2 * number + 1);
    }
    let refused = pool.create_child(object, 0, PAGE_SIZE, &mut list);
    assert_eq!(refused, Err(Refusal::NoNode));
    assert!(pool.is_sound());
}

/// The object's mappings lose writing over the child's range, each where it shows a part of it.
#[test]
fn the_objects_mappings_are_told_of_the_childs_range() {
    let mut pool = Pool::start(1).unwrap();
    let (object, other) = (pool.new(9).unwrap(), pool.new(9).unwrap());
    for (of, first, pages) in [
        (object, 0, 9),
        (other, 0, 9),
        (object, 4, 2),
        (object, 0, 3),
    ] {
        pool.append_mapping(of, first, pages).unwrap();
    }
    let mut list = Notices::with_room(4);
    pool.create_child(object, 3 * PAGE_SIZE, 2 * PAGE_SIZE, &mut list)
        .unwrap();
    let told = |mapping, first, pages| Notice {
        mapping: Mapping::from_number(mapping),
        first,
        pages,
        operation: Operation::RemoveWrite,
    };
    let came: Vec<Notice> = list.iter().collect();
    assert_eq!(came, [told(0, 3, 2), told(2, 0, 1)]);
    let refused = pool.create_child(object, 0, PAGE_SIZE, &mut Notices::with_room(3));
    assert_eq!(refused, Err(Refusal::NoRoom));
}

/// Children of children down to 31 hidden nodes, each written with its own byte, all read their
/// own.
#[test]
fn a_tower_of_31_keeps_every_byte() {
    let mut pool = Pool::start(1024).unwrap();
    let mut list = Notices::with_room(0);
    let mut objects = vec![pool.new(1).unwrap()];
    for byte in 0..31 {
        let newest = objects[byte as usize];
        pool.write(newest, byte, &[100 + byte as u8], &mut list)
            .unwrap();
        objects.push(pool.create_child(newest, 0, PAGE_SIZE, &mut list).unwrap());
    }
    for (n, object) in objects.iter().enumerate() {
        let mut expected = [0; 31];
        (0..31.min(n + 1)).for_each(|i| expected[i] = 100 + i as u8);
        let mut buf = [0; 31];
        pool.read(*object, 0, &mut buf).unwrap();
        assert_eq!(buf, expected, "{n}");
    }
    assert!(pool.is_sound());
    assert_eq!(pool.len(Object::from_number(61)), Ok(PAGE_SIZE));
}

/// Two mappings are live: 8 words are enough, 7 aren't, and words past the notices aren't written.
#[test]
fn a_list_need_not_be_whole_notices() {
    let child = |list: &mut [u32]| ffi::create_child(&mut sample().lend(), list, 3, 0, PAGE_SIZE);
    let write = |list: &mut [u32]| ffi::write(&mut sample().lend(), list, 3, 0, &[1]);
    for words in 0..12 {
        let mut list = vec![9; words];
        let code = if words < 8 { 10 } else { 0 };
        assert_eq!(child(&mut list).answer.code, code, "{words}");
        assert_eq!(write(&mut list).answer.code, code, "{words}");
        assert_eq!(list, vec![9; words]);
    }
}
