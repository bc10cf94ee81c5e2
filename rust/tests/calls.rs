//! The calls: values, refusals and their order.

mod common;

use common::*;
use goramul::ffi::{self, Answer};
use goramul::tables::{NEXT_OWNER, NODE_WORDS};
use goramul::{Mapping, Object, Pool, Refusal, Store, PAGE_SIZE};

fn ok(value: u64) -> Answer {
    Answer { code: 0, value }
}

fn refused(why: Refusal) -> Answer {
    let code = why.number();
    Answer { code, value: 0 }
}

fn fresh() -> Store {
    let mut s = Store::zeros(1);
    assert_eq!(ffi::start(&mut s.lend()), ok(0));
    s
}

#[test]
fn start_fills_any_tables_and_leaves_the_memory() {
    let mut s = sample();
    for word in s
        .nodes
        .iter_mut()
        .chain(&mut s.pages)
        .chain(&mut s.mappings)
    {
        *word = u32::MAX;
    }
    s.head.fill(77);
    s.used.fill(9);
    let memory = s.memory.clone();
    assert_eq!(ffi::start(&mut s.lend()), ok(0));
    let mut expected = Store::zeros(8);
    expected.next(1);
    expected.memory = memory;
    assert!(s == expected);
    assert!(ffi::is_sound(s.view()));
}

#[test]
fn start_is_refused_by_lengths_only() {
    for frames in [1, 6, 1024] {
        assert!(Pool::start(frames).is_ok(), "{frames}");
    }
    for frames in [0, 1025, usize::MAX] {
        let refused = Pool::start(frames).err();
        assert_eq!(refused, Some(Refusal::BadPool), "{frames}");
    }
}

#[test]
fn a_pool_is_attached_as_it_is() {
    let mut s = Store::zeros(3);
    assert!(!Pool::over(s.lend()).is_sound());
    Pool::over(s.lend()).restart().unwrap();
    let object = Pool::over(s.lend()).new(5).unwrap();
    assert_eq!(Pool::over(s.lend()).len(object), Ok(5 * PAGE_SIZE));
}

#[test]
fn objects_have_up_to_64_pages() {
    let mut pool = Pool::start(1).unwrap();
    let sizes = [0, 1, 63, 64];
    for (number, pages) in (0..).zip(sizes) {
        let object = pool.new(pages).unwrap();
        assert_eq!(object.number(), number);
        assert_eq!(pool.len(object), Ok(pages * PAGE_SIZE));
    }
    for pages in [65, 1 << 32, (1 << 32) + 1, 1 << 52, u64::MAX] {
        assert_eq!(pool.new(pages), Err(Refusal::InvalidArgs), "{pages}");
    }
}

/// A new object is an origin with the next owner number, and nothing else changes.
#[test]
fn new_changes_its_record_and_the_next_owner_only() {
    let mut s = sample();
    let mut expected = s.clone();
    expected.leaf(6, ORIGIN, 9, 7);
    expected.next(8);
    assert_eq!(ffi::new(&mut s.lend(), 9), ok(6));
    assert!(s == expected);
    expected.leaf(8, ORIGIN, 0, 8);
    expected.next(9);
    assert_eq!(ffi::new(&mut s.lend(), 0), ok(8));
    assert!(s == expected);
}

#[test]
fn spare_words_are_kept() {
    let mut s = sample();
    s.set(6, NODE_WORDS - 1, 5);
    s.head[3] = 6;
    assert_eq!(ffi::new(&mut s.lend(), 1), ok(6));
    assert_eq!(s.nodes[7 * NODE_WORDS - 1], 5);
    assert_eq!(s.head[3], 6);
}

#[test]
fn the_65th_object_has_no_node() {
    let mut s = fresh();
    for number in 0..64 {
        assert_eq!(ffi::new(&mut s.lend(), 1), ok(number));
    }
    unchanged(&mut s, |pool| {
        assert_eq!(pool.new(1), Err(Refusal::NoNode));
        assert_eq!(pool.new(65), Err(Refusal::InvalidArgs));
    });
}

#[test]
fn owner_numbers_end() {
    let mut s = fresh();
    s.next(16_777_215);
    assert_eq!(ffi::new(&mut s.lend(), 2), ok(0));
    assert_eq!(s.head[NEXT_OWNER], 16_777_216);
    unchanged(&mut s, |pool| {
        assert_eq!(pool.new(2), Err(Refusal::NoNode));
        assert_eq!(pool.new(65), Err(Refusal::InvalidArgs));
        assert_eq!(pool.len(Object::from_number(0)), Ok(2 * PAGE_SIZE));
    });
}

/// The calls leave every table and the memory as they were.
fn unchanged(s: &mut Store, calls: impl FnOnce(&mut Pool<'_>)) {
    let before = s.clone();
    calls(&mut Pool::over(s.lend()));
    assert!(*s == before);
}

#[test]
fn len_is_of_live_leaves_only() {
    let s = sample();
    let leaves = [(0, 4), (1, 4), (3, 6), (5, 64), (7, 0)];
    for (leaf, pages) in leaves {
        assert_eq!(ffi::len(s.view(), leaf), ok(pages * PAGE_SIZE));
    }
    let hidden_or_free = [2, 4, 6, 8, 63];
    let no_node = [64, 65, 1 << 32, (1 << 32) + 5, u64::MAX];
    for number in hidden_or_free.into_iter().chain(no_node) {
        let answer = ffi::len(s.view(), number);
        assert_eq!(answer, refused(Refusal::NoObject), "{number}");
    }
}

/// 7 comes before 8 and before 3; a good pool shows the later ones.
#[test]
fn a_bad_pool_is_said_first() {
    let mut s = sample();
    assert_eq!(ffi::len(s.view(), 64), refused(Refusal::NoObject));
    assert_eq!(ffi::new(&mut s.lend(), 65), refused(Refusal::InvalidArgs));
    s.used[6] = 1;
    assert_eq!(ffi::len(s.view(), 64), BAD_POOL);
    assert_eq!(ffi::new(&mut s.lend(), 65), BAD_POOL);
    assert_eq!(ffi::new(&mut s.lend(), u64::MAX), BAD_POOL);
}

#[test]
fn refusals_have_document_01s_numbers_and_names() {
    let names = [
        "OUT_OF_RANGE",
        "BAD_STATE",
        "INVALID_ARGS",
        "NO_MEMORY",
        "NOT_SUPPORTED",
        "UNAVAILABLE",
        "BAD_POOL",
        "NO_OBJECT",
        "NO_NODE",
        "NO_ROOM",
        "STOPPED",
        "PIN_LEDGER",
    ];
    for (number, name) in (1..).zip(names) {
        let refusal = Refusal::from_number(number).unwrap();
        assert_eq!(
            (refusal.number(), refusal.to_string()),
            (number, name.into())
        );
    }
    assert_eq!(Refusal::from_number(0), None);
    assert_eq!(Refusal::from_number(13), None);
}

#[test]
fn mappings_keep_their_order_and_the_lowest_number_is_given_again() {
    let mut pool = Pool::start(6).unwrap();
    let (a, b) = (pool.new(2).unwrap(), pool.new(2).unwrap());
    for number in 0..64 {
        let object = if number % 2 == 0 { a } else { b };
        let mapping = pool.append_mapping(object, number, 1).unwrap();
        assert_eq!(mapping.number(), number);
    }
    assert_eq!(pool.append_mapping(a, 0, 1), Err(Refusal::NoRoom));
    pool.remove_mapping(b, Mapping::from_number(4)).unwrap();
    assert_eq!(pool.append_mapping(a, 0, 1), Err(Refusal::NoRoom));
    pool.remove_mapping(a, Mapping::from_number(4)).unwrap();
    pool.remove_mapping(b, Mapping::from_number(64)).unwrap();
    assert_eq!(pool.append_mapping(b, 63, 1).unwrap().number(), 4);
    let last = &pool.view().mappings[252..];
    assert_eq!(last, [5, 1, 63, 1]);
    assert!(pool.is_sound());
}

#[test]
fn a_mapping_has_a_page_and_none_past_64() {
    let mut pool = Pool::start(6).unwrap();
    let object = pool.new(1).unwrap();
    let none = Object::from_number(1);
    for (first, pages) in [
        (0, 0),
        (64, 1),
        (0, 65),
        (1, 64),
        (u64::MAX, 1),
        (1, u64::MAX),
    ] {
        let refused = pool.append_mapping(object, first, pages);
        assert_eq!(refused, Err(Refusal::InvalidArgs), "{first} {pages}");
        let refused = pool.append_mapping(none, first, pages);
        assert_eq!(refused, Err(Refusal::NoObject), "{first} {pages}");
    }
    assert!(pool.append_mapping(object, 0, 64).is_ok());
    assert!(pool.append_mapping(object, 63, 1).is_ok());
}

#[test]
fn the_forecast_counts_the_pages_that_the_object_does_not_hold() {
    let mut pool = Pool::start(3).unwrap();
    let object = pool.new(4).unwrap();
    assert_eq!(pool.forecast(object, 0, 3 * PAGE_SIZE), Ok(true));
    assert_eq!(pool.forecast(object, 0, 3 * PAGE_SIZE + 1), Ok(false));
    assert_eq!(pool.forecast(object, 4095, 2 * PAGE_SIZE), Ok(true));
    assert_eq!(pool.forecast(object, 4095, 2 * PAGE_SIZE + 2), Ok(false));
    assert_eq!(pool.forecast(object, 4 * PAGE_SIZE, 0), Ok(true));
    for (offset, len) in [(4 * PAGE_SIZE, 1), (1, 4 * PAGE_SIZE), (u64::MAX, u64::MAX)] {
        let refused = pool.forecast(object, offset, len);
        assert_eq!(refused, Err(Refusal::OutOfRange), "{offset} {len}");
    }
}
