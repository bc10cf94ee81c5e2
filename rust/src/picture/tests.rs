//! The texts of a few pools.

use super::{Picture, WIDTH};
use crate::tables::{node, NEXT_OWNER, NODE_WORDS, ROW_WORDS};
use crate::{Notices, Object, Pool, Refusal, Store, View, MAX_FRAMES, MAX_PAGES, PAGE_SIZE};

const NO_POOL: &str = "not a sound pool";

fn text(view: View<'_>) -> String {
    Picture::of(view).to_string()
}

fn entry(frame: u32, tag: u32, pins: u32) -> u32 {
    frame + 1 + 4096 * tag + 16384 * pins
}

#[test]
fn no_object() {
    for (frames, free) in [
        (1, "1 of 1 frame free: 0"),
        (6, "6 of 6 frames free: 0 to 5"),
    ] {
        let pool = Pool::start(frames).unwrap();
        assert_eq!(text(pool.view()), format!("{free}; next owner 1"));
    }
}

#[test]
fn tables_that_are_no_pool() {
    let mut store = Store::zeros(6);
    assert_eq!(text(store.view()), NO_POOL);
    store.head[NEXT_OWNER] = 1;
    assert_ne!(text(store.view()), NO_POOL);
    store.used[5] = 1;
    assert_eq!(text(store.view()), NO_POOL);
    store.used.clear();
    assert_eq!(text(store.view()), NO_POOL);
}

#[test]
fn two_stops() -> Result<(), Refusal> {
    let mut pool = Pool::start(5)?;
    let list = &mut Notices::with_room(8);
    let table = pool.new(3)?;
    pool.append_mapping(table, 1, 2)?;
    pool.write(table, PAGE_SIZE, &[1; 8192], list)?;
    let older = pool.create_child(table, 0, 3 * PAGE_SIZE, list)?;
    pool.create_child(table, PAGE_SIZE, PAGE_SIZE, list)?;
    pool.write(older, PAGE_SIZE, &[2], list)?;
    assert_eq!(text(pool.view()), TWO_STOPS);
    Ok(())
}

/// The younger stop shows the table's page 1 only.
const TWO_STOPS: &str = "\
hidden 2, 3 pages: page 1 in frame 0, split for object 1 (right); page 2 in frame 1
├ object 1 (right, snapshot), 3 pages, window 0 to 2: page 1 in frame 2
└ hidden 4 (left), 3 pages, window 0 to 2: no page of its own
  ├ object 0 (left, origin), 3 pages, window 0 to 2: no page of its own; mapping 0 of pages 1 to 2
  └ object 3 (right, snapshot), 1 page, window 1: no page of its own
2 of 5 frames free: 3 to 4; next owner 4";

#[test]
fn two_hidden_children() -> Result<(), Refusal> {
    let mut pool = Pool::start(1)?;
    let list = &mut Notices::with_room(0);
    let table = pool.new(1)?;
    let stop = pool.create_child(table, 0, PAGE_SIZE, list)?;
    pool.create_child(stop, PAGE_SIZE, 0, list)?;
    pool.create_child(table, 0, PAGE_SIZE, list)?;
    assert_eq!(text(pool.view()), TWO_HIDDEN_CHILDREN);
    Ok(())
}

/// A child of no pages has an empty window.
const TWO_HIDDEN_CHILDREN: &str = "\
hidden 2, 1 page: no page of its own
├ hidden 6 (left), 1 page, window 0: no page of its own
│ ├ object 0 (left, origin), 1 page, window 0: no page of its own
│ └ object 5 (right, snapshot), 1 page, window 0: no page of its own
└ hidden 4 (right), 1 page, window 0: no page of its own
  ├ object 1 (left, snapshot), 1 page, window 0: no page of its own
  └ object 3 (right, snapshot), 0 pages, empty window: no page of its own
1 of 1 frame free: 0; next owner 5";

#[test]
fn pins_and_policy() {
    let mut store = Store::zeros(8);
    store.head[NEXT_OWNER] = 3;
    // A root's window shows nothing, and isn't told.
    let records = [
        [1, 0, 0, 0, 0, 0, 8, 1, 0, 7],
        [2, 0, 0, 0, 3, 3, 0, 2, 2, 0],
    ];
    for (place, record) in store
        .nodes
        .chunks_exact_mut(NODE_WORDS)
        .skip(5)
        .zip(records)
    {
        place[..record.len()].copy_from_slice(&record);
    }
    for (page, frame, pins) in [
        (0, 1, 2),
        (1, 2, 2),
        (2, 3, 1),
        (3, 4, 0),
        (5, 5, 0),
        (6, 7, 0),
    ] {
        store.pages[5 * ROW_WORDS + page] = entry(frame, 0, pins);
        store.used[frame as usize] = 1;
    }
    let mappings = [[2, 5, 0, 8], [1, 6, 63, 1], [3, 5, 1, 1]];
    store.mappings[..12].copy_from_slice(mappings.as_flattened());
    assert_eq!(text(store.view()), PINS_AND_POLICY);
}

const PINS_AND_POLICY: &str = "\
object 5 (origin), 8 pages, 7 pins: pages 0 to 1 in frames 1 to 2, 2 pins each; page 2 in frame 3,
    1 pin; page 3 in frame 4; page 5 in frame 5; page 6 in frame 7; mapping 1 of pages 0 to 7;
    mapping 2 of page 1
object 6 (snapshot), 0 pages, policy 2: no page of its own; mapping 0 of page 63
2 of 8 frames free: 0, 6; next owner 3";

/// A row of 31 children, each of the one before, and the last of them.
fn deep(pages: u64) -> Result<(Pool<'static>, Object), Refusal> {
    let mut pool = Pool::start(MAX_FRAMES)?;
    let list = &mut Notices::with_room(0);
    let mut object = pool.new(pages)?;
    pool.write(object, 0, &[1], list)?;
    for _ in 0..31 {
        object = pool.create_child(object, 0, pages * PAGE_SIZE, list)?;
    }
    Ok((pool, object))
}

#[test]
fn thirty_one_deep() -> Result<(), Refusal> {
    let (mut pool, last) = deep(1)?;
    pool.write(last, 0, &[2], &mut Notices::with_room(0))?;
    let text = text(pool.view());
    let lines: Vec<&str> = text.lines().collect();
    assert_eq!(lines[..4], DEEP_START);
    let (last, end) = lines.split_last().unwrap();
    assert_eq!(
        end[end.len() - 4..],
        DEEP_END.map(|line| format!("{:60}{line}", ""))
    );
    assert_eq!(*last, "992 of 1024 frames free: 32 to 1023; next owner 33");
    Ok(())
}

const DEEP_START: [&str; 4] = [
    "hidden 2, 1 page: page 0 in frame 0, split for hidden 4 (right)",
    "├ object 0 (left, origin), 1 page, window 0: no page of its own",
    "└ hidden 4 (right), 1 page, window 0: page 0 in frame 1, split for hidden 6 (right)",
    "  ├ object 1 (left, snapshot), 1 page, window 0: no page of its own",
];

const DEEP_END: [&str; 4] = [
    "├ object 59 (left, snapshot), 1 page,",
    "│     window 0: no page of its own",
    "└ object 61 (right, snapshot), 1 page,",
    "      window 0: page 0 in frame 31",
];

/// All nodes hold pages, and every second frame is free.
#[test]
fn no_line_is_too_wide() -> Result<(), Refusal> {
    let (mut pool, _) = deep(MAX_PAGES)?;
    let tables = pool.tables();
    let places = (0..63 * ROW_WORDS).step_by(8);
    for (place, frame) in places.zip((0..).step_by(2)) {
        let hidden = tables.nodes[place / ROW_WORDS * NODE_WORDS + node::KIND] == 3;
        tables.pages[place] = entry(frame as u32, u32::from(hidden), 0);
        tables.used[frame] = 1;
    }
    let text = text(pool.view());
    let columns = text.lines().map(|line| line.chars().count());
    assert_eq!(columns.max(), Some(WIDTH));
    assert_eq!(text.matches("in frame").count(), 504);
    assert!(text.ends_with(" 1007 to 1023; next owner 33"));
    Ok(())
}
