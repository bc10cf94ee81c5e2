//! Calls on 64 pages of an object, in pools of 1,024 frames of which 64 are in use, beside what
//! moves the same bytes and does nothing else.

use crate::buffers::{copy, Buffers, ALL};
use crate::case::{Case, Work};
use crate::sound;
use goramul::{Notices, Object, Pool, Refusal, Store, MAX_FRAMES, MAX_PAGES, PAGE_SIZE};
use std::hint::black_box;

const PAGE: usize = PAGE_SIZE as usize;

pub const NOTE: &str = "\
Calls are on 64 pages, with 64 of 1,024 frames in use. Beside moving bytes each tests the pool and
seeks its pages; a write or commit counts the free frames twice and seeks one for each page that it
takes; for a page shared with a child it also looks for mappings to tell.";

pub fn cases() -> Vec<Case> {
    let pools = [own(), absent(), shared()].map(|pool| pool.expect("there is room for it"));
    let [own, absent, shared] = &pools;
    let case = |name, pool, work, beside| Case::new(name, pool, work, beside, Some(1.3));
    let no_goal = |name, pool, work, beside| Case::new(name, pool, work, beside, None);
    vec![
        case("second write, own pages", own, |p, b| write(p, 0, b), STORE),
        case("read, own pages", own, |p, b| read(p, &mut b.buf), FETCH),
        no_goal(
            "first write, absent pages",
            absent,
            |p, b| write(p, 1, b),
            CLEAR_STORE,
        ),
        case("commit, absent pages", absent, |p, _| commit(p, 1), CLEAR),
        case(
            "commit, pages shared with a child",
            shared,
            |p, _| commit(p, 0),
            COPY,
        ),
        case(
            "write, pages shared with a child",
            shared,
            |p, b| write(p, 0, b),
            COPY_STORE,
        ),
        no_goal(
            "read of 16 bytes",
            own,
            |p, b| read(p, &mut b.buf[..16]),
            sound::TEST,
        ),
    ]
}

/// An object whose 64 pages are all in frames.
fn own() -> Result<Store, Refusal> {
    let mut store = Store::zeros(MAX_FRAMES);
    let mut pool = Pool::over(store.lend());
    pool.restart()?;
    let object = pool.new(MAX_PAGES)?;
    pool.commit(object, 0, ALL as u64, &mut no_notices())?;
    Ok(store)
}

/// And another one without a frame.
fn absent() -> Result<Store, Refusal> {
    let mut store = own()?;
    Pool::over(store.lend()).new(MAX_PAGES)?;
    Ok(store)
}

/// And a child that shares them all.
fn shared() -> Result<Store, Refusal> {
    let mut store = own()?;
    let object = Object::from_number(0);
    Pool::over(store.lend()).create_child(object, 0, ALL as u64, &mut no_notices())?;
    Ok(store)
}

/// No mapping is live.
fn no_notices() -> Notices {
    Notices::with_room(0)
}

fn write(store: &mut Store, object: u64, buffers: &Buffers) {
    let object = Object::from_number(object);
    let done = Pool::over(store.lend()).write(object, 0, &buffers.bytes, &mut no_notices());
    assert_eq!(done.map(|done| done.bytes), Ok(ALL as u64));
}

fn read(store: &mut Store, buf: &mut [u8]) {
    let done = Pool::over(store.lend()).read(Object::from_number(0), 0, buf);
    assert_eq!(done, Ok(()));
}

fn commit(store: &mut Store, object: u64) {
    let object = Object::from_number(object);
    let done = Pool::over(store.lend()).commit(object, 0, ALL as u64, &mut no_notices());
    assert_eq!(done.map(|done| done.frames), Ok(MAX_PAGES));
}

type Reference = (&'static str, Work);

fn clear(bytes: &mut [u8]) {
    black_box(bytes).fill(0);
}

const STORE: Reference = ("memcpy", |_, b| copy(&mut b.memory[..ALL], &b.bytes));
const FETCH: Reference = ("memcpy", |_, b| copy(&mut b.buf, &b.memory[..ALL]));
const CLEAR: Reference = ("memset", |_, b| clear(&mut b.memory[..ALL]));

/// Frames to frames.
const COPY: Reference = ("memcpy", |_, b| {
    let (from, to) = b.memory.split_at_mut(ALL);
    copy(&mut to[..ALL], from);
});

/// Page by page, so that a cleared page is still near when it is written.
const CLEAR_STORE: Reference = ("memset and memcpy", |_, b| {
    let frames = b.memory.chunks_exact_mut(PAGE);
    for (frame, page) in frames.zip(b.bytes.chunks_exact(PAGE)) {
        clear(frame);
        copy(frame, page);
    }
});

const COPY_STORE: Reference = ("two memcpy", |_, b| {
    let (from, to) = b.memory.split_at_mut(ALL);
    let frames = to.chunks_exact_mut(PAGE).zip(from.chunks_exact(PAGE));
    for ((to, from), page) in frames.zip(b.bytes.chunks_exact(PAGE)) {
        copy(to, from);
        copy(to, page);
    }
});
