//! read, write, commit and peek: their refusals in order, and what they give.

mod common;

use common::ladder::{climb, Case, Step};
use common::*;
use goramul::ffi::{self, Place};
use goramul::tables::node;
use goramul::{Done, Notices, Object, Pool, Refusal, Store, PAGE_SIZE};

/// A sound test fails, object 5 isn't Cached, and no frame is free; two mappings are live.
fn all_wrong() -> Case {
    let mut store = sample();
    store.used[6] = 1;
    store.hold(3, 0, 7, OWNED, 0);
    store.set(5, node::POLICY, 3);
    Case {
        store,
        object: 64,
        offset: 64 * PAGE_SIZE - 1,
        len: 2,
        room: 0,
    }
}

fn sound_but_full(c: &mut Case) {
    c.store.hold(3, 1, 6, OWNED, 0);
}

fn free_two(c: &mut Case) {
    for page in 0..2 {
        c.store.put(3, page, 0);
    }
    c.store.used[6..].fill(0);
}

#[test]
fn refusals_of_read_come_in_order() {
    const STEPS: [Step; 4] = [
        (Refusal::BadPool, sound_but_full),
        (Refusal::NoObject, |c| c.object = 5),
        (Refusal::BadState, |c| c.store.set(5, node::POLICY, 0)),
        (Refusal::OutOfRange, |c| c.len = 1),
    ];
    let call = |c: &mut Case| read(&mut c.store.lend(), c.object, c.offset, c.len as usize);
    climb(&mut all_wrong(), call, &STEPS);
}

#[test]
fn refusals_of_write_come_in_order() {
    const STEPS: [Step; 6] = [
        (Refusal::BadPool, sound_but_full),
        (Refusal::NoObject, |c| c.object = 5),
        (Refusal::BadState, |c| c.store.set(5, node::POLICY, 0)),
        (Refusal::OutOfRange, |c| c.offset = PAGE_SIZE - 1),
        (Refusal::NoRoom, |c| c.room = 4),
        (Refusal::NoMemory, free_two),
    ];
    let call = |c: &mut Case| {
        let (bytes, mut list) = (vec![7; c.len as usize], c.list());
        ffi::write(&mut c.store.lend(), &mut list, c.object, c.offset, &bytes).answer
    };
    let mut case = all_wrong();
    case.room = 3;
    climb(&mut case, call, &STEPS);
}

/// The policy is no matter to a commit. Offset and length are each rounded down to pages.
#[test]
fn refusals_of_commit_come_in_order() {
    const STEPS: [Step; 5] = [
        (Refusal::BadPool, sound_but_full),
        (Refusal::NoObject, |c| c.object = 5),
        (Refusal::OutOfRange, |c| c.offset = 4 * PAGE_SIZE + 1),
        (Refusal::NoRoom, |c| c.room = 4),
        (Refusal::NoMemory, free_two),
    ];
    let call = |c: &mut Case| {
        let mut list = c.list();
        ffi::commit(&mut c.store.lend(), &mut list, c.object, c.offset, c.len).answer
    };
    let mut case = all_wrong();
    (case.len, case.room) = (3 * PAGE_SIZE - 1, 3);
    climb(&mut case, call, &STEPS);
    let row = &case.store.pages[5 * 64..][..64];
    assert_eq!((row[4], row[5], row[6]), (7, 8, 0));
}

#[test]
fn ranges_end_with_the_object() {
    let mut pool = Pool::start(4).unwrap();
    let mut list = Notices::with_room(0);
    let object = pool.new(3).unwrap();
    let end = 3 * PAGE_SIZE;
    for (offset, len) in [
        (end, 1),
        (end - 1, 2),
        (0, end + 1),
        (end + 1, 0),
        (u64::MAX, 0),
    ] {
        let mut buf = vec![5; len as usize];
        let why = Err(Refusal::OutOfRange);
        assert_eq!(pool.read(object, offset, &mut buf), why);
        assert!(buf.iter().all(|byte| *byte == 5));
        let write = pool.write(object, offset, &buf, &mut list);
        assert_eq!(write.map_err(Refusal::from).map(|_| ()), why);
        let commit = pool.commit(object, offset, len, &mut list);
        assert_eq!(commit.map_err(Refusal::from).map(|_| ()), why);
    }
    for (offset, len) in [(u64::MAX, u64::MAX), (1, u64::MAX), (u64::MAX, 1)] {
        let commit = pool.commit(object, offset, len, &mut list).unwrap_err();
        assert_eq!(
            (commit.why, commit.done),
            (Refusal::OutOfRange, Done::default())
        );
    }
    assert_eq!(pool.write(object, end, &[], &mut list), Ok(Done::default()));
    assert_eq!(pool.read(object, end, &mut []), Ok(()));
}

/// Bytes at all places in and across pages come back, and none beside them changes.
#[test]
fn written_bytes_are_read_back() {
    let mut pool = Pool::start(3).unwrap();
    let mut list = Notices::with_room(0);
    let object = pool.new(3).unwrap();
    let mut model = vec![0; 3 * 4096];
    let ranges = [
        (0, 1),
        (4095, 1),
        (4095, 2),
        (4096, 4096),
        (1, 12286),
        (8191, 4097),
        (77, 0),
    ];
    for (i, (at, len)) in ranges.into_iter().enumerate() {
        let bytes: Vec<u8> = (0..len).map(|x| (x * 7 + i) as u8).collect();
        let done = pool.write(object, at as u64, &bytes, &mut list).unwrap();
        assert_eq!(done.bytes, len as u64);
        model[at..at + len].copy_from_slice(&bytes);
        let mut all = vec![1; 3 * 4096];
        pool.read(object, 0, &mut all).unwrap();
        assert!(all == model, "{at} {len}");
    }
    assert_eq!(pool.view().used, [1, 1, 1]);
}

#[test]
fn commit_takes_the_frames_that_are_missing() {
    let mut pool = Pool::start(6).unwrap();
    let mut list = Notices::with_room(0);
    let object = pool.new(4).unwrap();
    pool.write(object, PAGE_SIZE, &[3], &mut list).unwrap();
    let done = pool.commit(object, 0, 3 * PAGE_SIZE, &mut list).unwrap();
    assert_eq!((done.bytes, done.frames), (0, 2));
    let done = pool
        .commit(object, 0, 3 * PAGE_SIZE + 4095, &mut list)
        .unwrap();
    assert_eq!(done.frames, 0);
    assert_eq!(
        pool.write(object, 0, &[9; 3 * 4096], &mut list)
            .unwrap()
            .frames,
        0
    );
}

/// Peek and read say the same of every page of every object, and only read moves anything.
#[test]
fn peek_shows_what_a_read_gives() {
    let mut s = sample();
    s.set(1, node::POLICY, 2);
    for object in 0..66 {
        for page in [0, 1, 2, 3, 5, 6, 62, 63, 64, 1 << 32, 1 << 52, u64::MAX] {
            let mut peeked = s.clone();
            let pool = Pool::over(peeked.lend());
            let shown = pool
                .peek(Object::from_number(object), page)
                .map(<[u8]>::to_vec);
            assert!(peeked == s);
            let mut buf = vec![1; 4096];
            let offset = page.saturating_mul(PAGE_SIZE);
            let read = ffi::read(&mut s.clone().lend(), object, offset, &mut buf);
            assert_eq!(shown, (read.code == 0).then_some(buf), "{object} {page}");
        }
    }
}

#[test]
fn peek_shows_a_part_of_the_memory_or_of_the_zero_page() {
    let s = sample();
    assert_eq!(ffi::peek(s.view(), &ZEROS, 0, 3), Place::Frame(1));
    assert_eq!(ffi::peek(s.view(), &ZEROS, 3, 1), Place::ZeroPage);
    let mut one_bit = ZEROS;
    one_bit[4095] = 128;
    for not_zeros in [&[][..], &ZEROS[1..], &[0; 4097], &one_bit] {
        for page in [1, 3] {
            assert_eq!(ffi::peek(s.view(), not_zeros, 0, page), Place::Nowhere);
        }
    }
    let mut pool = Pool::start(3).unwrap();
    let object = pool.new(1).unwrap();
    pool.write(object, 0, &[1], &mut Notices::with_room(0))
        .unwrap();
    let shown = pool.peek(object, 0).unwrap();
    assert!(std::ptr::eq(shown, &pool.view().memory[..4096]));
}

/// A page that only one side can reach moves to it when that side reads: the frame stays, and no
/// byte changes.
#[test]
fn a_read_moves_a_page_that_only_it_can_reach() {
    let mut s = Store::zeros(2);
    s.next(3);
    s.leaf(0, SNAPSHOT, 2, 1);
    s.leaf(1, SNAPSHOT, 1, 2);
    s.hide(2, [0, 1], 2, 1);
    s.window(0, 0, 2);
    s.window(1, 0, 1);
    s.hold(2, 1, 0, OWNED, 0);
    s.memory.fill(8);
    let mut expected = s.clone();
    expected.put(2, 1, 0);
    expected.put(0, 1, entry(0, OWNED, 0));
    assert_eq!(read(&mut s.lend(), 0, PAGE_SIZE, 1).code, 0);
    assert!(s == expected);
}
