//! The calls of a trace by their letters.

use crate::answer::Answer;
use crate::driver::Driver;
use goramul::report::H;
use goramul::{Mapping, Notices, Object, Pool, MAX_PAGES, PAGE_SIZE};

/// A letter, how many numbers follow it, and the call; it gives none for a number that makes the
/// line bad.
type Call = (u8, usize, fn(&mut Driver, &[u64]) -> Option<Answer>);

/// The calls that the library has. The other letters of the format are bad lines as yet.
const CALLS: &[Call] = &[
    (b's', 1, |d, n| Some(d.start(n[0]))),
    (b'a', 1, |d, n| Some(d.set_room(n[0]))),
    (b'n', 1, |d, n| {
        Some(Answer::plain(d.pool.new(n[0]).map(Object::number)))
    }),
    (b'l', 1, |d, n| {
        Some(Answer::plain(d.pool.len(object(n[0]))))
    }),
    (b'r', 3, |d, n| {
        Some(read(&mut d.pool, object(n[0]), n[1], n[2]))
    }),
    (b'w', 4, |d, n| {
        let bytes = data(n[2], n[3], 0)?;
        Some(d.told(|pool, list| Answer::ranged(pool.write(object(n[0]), n[1], &bytes, list))))
    }),
    (b'W', 5, |d, n| {
        let bytes = data(n[2], n[3], n[4])?;
        Some(d.told(|pool, list| Answer::ranged(pool.write(object(n[0]), n[1], &bytes, list))))
    }),
    (b'k', 3, |d, n| {
        Some(d.told(|pool, list| child(pool, n[0], in_bytes(n[1]), in_bytes(n[2]), list)))
    }),
    (b'K', 3, |d, n| {
        Some(d.told(|pool, list| child(pool, n[0], n[1], n[2], list)))
    }),
    (b'g', 3, |d, n| match n[2] {
        0 | 1 => Some(d.told(|pool, list| {
            let frame = pool.commit_page(object(n[0]), n[1], n[2] == 1, list);
            Answer::plain(frame.map(|frame| frame.unwrap_or(ZERO_FRAME)))
        })),
        _ => None,
    }),
    (b'c', 3, |d, n| {
        Some(d.told(|pool, list| Answer::ranged(pool.commit(object(n[0]), n[1], n[2], list))))
    }),
    (b'm', 3, |d, n| {
        let appended = d.pool.append_mapping(object(n[0]), n[1], n[2]);
        Some(Answer::plain(appended.map(Mapping::number)))
    }),
    (b'u', 2, |d, n| {
        let mapping = Mapping::from_number(n[1]);
        let removed = d.pool.remove_mapping(object(n[0]), mapping);
        Some(Answer::plain(removed.map(|()| 0)))
    }),
    (b'h', 2, |d, n| {
        let page = d.pool.peek(object(n[0]), n[1]);
        Some(Answer::plain(Ok(page.map_or(0, |bytes| 1 + hash(bytes)))))
    }),
    (b'f', 3, |d, n| {
        let forecast = d.pool.forecast(object(n[0]), n[1], n[2]);
        Some(Answer::plain(forecast.map(u64::from)))
    }),
];

/// How a trace shows the page that has no frame.
const ZERO_FRAME: u64 = 4_294_967_295;

/// The letters of the calls.
pub fn letters() -> String {
    CALLS.iter().map(|call| char::from(call.0)).collect()
}

/// Makes the call; none if the line is bad.
pub fn call(driver: &mut Driver, letter: u8, numbers: &[u64]) -> Option<Answer> {
    let named = |call: &&Call| call.0 == letter && call.1 == numbers.len();
    let (_, _, call) = CALLS.iter().find(named)?;
    call(driver, numbers)
}

fn object(number: u64) -> Object {
    Object::from_number(number)
}

fn child(pool: &mut Pool<'_>, of: u64, offset: u64, len: u64, list: &mut Notices) -> Answer {
    let child = pool.create_child(object(of), offset, len, list);
    Answer::plain(child.map(Object::number))
}

/// What a buffer holds before a read.
const UNREAD: u8 = 0xa5;

fn read(pool: &mut Pool<'_>, object: Object, offset: u64, len: u64) -> Answer {
    let mut buf = vec![UNREAD; lent(len)];
    let done = pool.read(object, offset, &mut buf);
    let filled = || buf.iter().any(|byte| *byte != UNREAD);
    assert!(done.is_ok() || !filled(), "a refused read fills no byte");
    Answer::plain(done.map(|()| hash(&buf)))
}

fn hash(bytes: &[u8]) -> u64 {
    H::EMPTY.bytes(bytes).value().into()
}

/// The bytes of a write: byte i is (first + i × step) mod 256. None if the first isn't a byte.
fn data(first: u64, len: u64, step: u64) -> Option<Vec<u8>> {
    let first = u8::try_from(first).ok()?;
    let step = step as u8;
    let byte = |i: usize| first.wrapping_add((i as u8).wrapping_mul(step));
    Some((0..lent(len)).map(byte).collect())
}

/// How long a buffer of a length is lent: no object is longer than 64 pages, so one byte more is
/// as far outside as any length above.
fn lent(len: u64) -> usize {
    len.min(MAX_PAGES * PAGE_SIZE + 1) as usize
}

/// Pages in bytes. What is above every number is as far outside, and a whole page still, as the
/// largest page's first byte.
fn in_bytes(pages: u64) -> u64 {
    const LAST_PAGE: u64 = u64::MAX / PAGE_SIZE;
    pages.min(LAST_PAGE) * PAGE_SIZE
}
