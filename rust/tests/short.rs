//! Writes and commits that are cut short: how far they went, what they leave, and what they tell.

mod common;

use common::*;
use goramul::tables::{node, NODE_WORDS};
use goramul::{CutShort, Done, Mapping, Notice, Notices, Object, Operation, Pool};
use goramul::{Refusal, PAGE_SIZE};

fn short(why: Refusal, bytes: u64, frames: u64) -> CutShort {
    let done = Done { bytes, frames };
    CutShort { why, done }
}

fn no_list() -> Notices {
    Notices::with_room(0)
}

/// An object of a page of 1s, and a child, its child, and so on.
fn tower(frames: usize, children: usize) -> (Pool<'static>, Vec<Object>) {
    let mut pool = Pool::start(frames).unwrap();
    let mut objects = vec![pool.new(1).unwrap()];
    pool.write(objects[0], 0, &[1; 4096], &mut no_list())
        .unwrap();
    for i in 0..children {
        let child = pool.create_child(objects[i], 0, PAGE_SIZE, &mut no_list());
        objects.push(child.unwrap());
    }
    (pool, objects)
}

fn first_byte(pool: &Pool<'_>, object: Object) -> u8 {
    pool.peek(object, 0).unwrap()[0]
}

/// Document 01's P8.
#[test]
fn one_frame_is_enough_for_one_object_only() {
    let (mut pool, objects) = tower(1, 1);
    let before = pool.view().pages.to_vec();
    let refused = pool.write(objects[1], 0, &[2; 4096], &mut no_list());
    assert_eq!(refused, Err(short(Refusal::NoMemory, 0, 0)));
    assert_eq!(pool.view().pages, before);
}

/// The deepest child's write copies the page at each of 31 hidden nodes, with any number of frames.
#[test]
fn copies_on_the_path_stay_and_are_counted() {
    for frames in 1..=33 {
        let (mut pool, objects) = tower(frames, 31);
        let ended = pool.write(objects[31], 0, &[2; 4096], &mut no_list());
        let taken = (frames as u64 - 1).min(31);
        let expected = match taken {
            31 => Ok(Done {
                bytes: 4096,
                frames: 31,
            }),
            _ => Err(short(Refusal::NoMemory, 0, taken)),
        };
        assert_eq!(ended, expected, "{frames}");
        let free = pool.view().used.iter().filter(|flag| **flag == 0).count();
        assert_eq!(free as u64, frames as u64 - 1 - taken);
        assert!(pool.is_sound());
        for object in &objects[..31] {
            assert_eq!(first_byte(&pool, *object), 1, "{frames}");
        }
        let deepest = if ended.is_ok() { 2 } else { 1 };
        assert_eq!(first_byte(&pool, objects[31]), deepest);
    }
}

/// The bytes done end at a page, from wherever the write started.
#[test]
fn earlier_pages_of_a_write_are_done() {
    let mut pool = Pool::start(2).unwrap();
    let object = pool.new(4).unwrap();
    let ended = pool.write(object, 100, &[6; 3 * 4096], &mut no_list());
    assert_eq!(ended, Err(short(Refusal::NoMemory, 2 * 4096 - 100, 2)));
    let mut buf = [0; 4 * 4096];
    pool.read(object, 0, &mut buf).unwrap();
    let mut expected = [0; 4 * 4096];
    expected[100..8192].fill(6);
    assert!(buf == expected);
    let ended = pool.commit(object, 0, 4 * PAGE_SIZE, &mut no_list());
    assert_eq!(ended, Err(short(Refusal::NoMemory, 0, 0)));
}

#[test]
fn earlier_pages_of_a_commit_are_done() {
    let mut pool = Pool::start(2).unwrap();
    let object = pool.new(3).unwrap();
    let ended = pool.commit(object, 0, 3 * PAGE_SIZE, &mut no_list());
    assert_eq!(ended, Err(short(Refusal::NoMemory, 0, 2)));
    let row = &pool.view().pages[..3];
    assert_eq!(row, [1, 2, 0]);
}

/// What a refused write did on its way up is told: the copy above the middle hidden node unmaps the
/// page in the middle child, and the writer, who got none, isn't told.
#[test]
fn notices_of_a_refused_write_are_given() {
    let (mut pool, objects) = tower(2, 2);
    for object in &objects {
        pool.append_mapping(*object, 0, 1).unwrap();
    }
    let mut list = Notices::with_room(3);
    let ended = pool.write(objects[2], 0, &[2], &mut list);
    assert_eq!(ended, Err(short(Refusal::NoMemory, 0, 1)));
    let unmap = |mapping| Notice {
        mapping: Mapping::from_number(mapping),
        first: 0,
        pages: 1,
        operation: Operation::Unmap,
    };
    assert_eq!(list.iter().collect::<Vec<_>>(), [unmap(1)]);

    let (mut pool, objects) = tower(3, 2);
    for object in &objects {
        pool.append_mapping(*object, 0, 1).unwrap();
    }
    let ended = pool.write(objects[2], 0, &[2], &mut list);
    assert_eq!(ended.map(|done| done.frames), Ok(2));
    assert_eq!(list.iter().collect::<Vec<_>>(), [unmap(1), unmap(2)]);
    pool.write(objects[2], 1, &[2], &mut list).unwrap();
    assert!(list.is_empty());
}

/// Document 01's P7: a child of one page, grown to two and cloned. Its second page is outside what
/// the hidden node above has, which the source doesn't expect of a write.
fn grown_and_cloned(frames: usize) -> (Pool<'static>, Object) {
    let (mut pool, objects) = tower(frames, 1);
    let grown = objects[1];
    let record = grown.number() as usize * NODE_WORDS;
    pool.tables().nodes[record + node::SIZE] = 2;
    pool.create_child(grown, 0, 2 * PAGE_SIZE, &mut no_list())
        .unwrap();
    (pool, grown)
}

#[test]
fn a_stopped_page_is_left_as_it_was() {
    for frames in [3, 4, 9] {
        let (mut pool, grown) = grown_and_cloned(frames);
        let ended = pool.write(grown, 0, &[5; 8192], &mut no_list());
        // Two copies for the first page; with no frame free the second is refused for that.
        let why = match frames {
            3 => Refusal::NoMemory,
            _ => Refusal::Stopped,
        };
        assert_eq!(ended, Err(short(why, 4096, 2)), "{frames}");
        assert_eq!(first_byte(&pool, grown), 5);
        assert_eq!(pool.peek(grown, 1), Some(&ZEROS[..]));
        let (pages, used) = (pool.view().pages.to_vec(), pool.view().used.to_vec());
        let ended = pool.commit(grown, 0, 2 * PAGE_SIZE, &mut no_list());
        assert_eq!(ended, Err(short(why, 0, 0)));
        let page = pool.commit_page(grown, 1, true, &mut no_list());
        assert_eq!(page, Err(why));
        assert!(pool.view().pages == pages && pool.view().used == used);
        assert!(pool.is_sound());
    }
}

#[test]
fn a_cut_short_call_says_why_and_how_far() {
    let short = short(Refusal::NoMemory, 8092, 2);
    assert_eq!(short.to_string(), "NO_MEMORY after 8092 bytes and 2 frames");
    let plain = || -> Result<(), Refusal> { Err(short)? };
    assert_eq!(plain(), Err(Refusal::NoMemory));
}
