//! The sound test on pools of 1,024 frames, beside a copy of 64 pages.

use crate::buffers::{copy, ALL};
use crate::case::{Case, Work};
use goramul::tables::{node, NEXT_OWNER, NODE_WORDS, ROW_WORDS};
use goramul::{ffi, Store, MAX_FRAMES, MAX_PAGES, NODES};
use std::hint::black_box;

pub fn cases() -> Vec<Case> {
    vec![
        case("sound, 64 frames in use, one object", objects(64, 1), 0.2),
        case("sound, 64 frames in use, 64 objects", objects(64, 64), 0.2),
        case("sound, 64 frames in use, 31 deep", deep(64), 0.2),
        case(
            "sound, 1,000 frames in use, 16 objects",
            objects(1000, 16),
            0.6,
        ),
        case(
            "sound, 1,000 frames in use, 64 objects",
            objects(1000, 64),
            0.6,
        ),
        case("sound, 1,000 frames in use, 31 deep", deep(1000), 0.6),
    ]
}

fn case(name: &'static str, pool: Store, goal: f64) -> Case {
    assert!(ffi::is_sound(pool.view()));
    Case::new(name, &pool, TEST.1, COPY, Some(goal))
}

pub const TEST: (&str, Work) = ("the sound test", |pool, _| {
    black_box(ffi::is_sound(black_box(pool.view())));
});

const COPY: (&str, Work) = ("a copy of 64 pages", |_, buffers| {
    copy(&mut buffers.memory[..ALL], &buffers.bytes);
});

/// So many frames, spread evenly over the first nodes, each an object of 64 pages.
fn objects(frames: usize, nodes: usize) -> Store {
    let mut pool = Store::zeros(MAX_FRAMES);
    pool.head[NEXT_OWNER] = 2;
    for n in 0..nodes {
        let record = &mut pool.nodes[n * NODE_WORDS..];
        record[node::KIND] = 1;
        record[node::SIZE] = MAX_PAGES as u32;
        record[node::OWNER] = 1;
    }
    for frame in 0..frames {
        let (n, page) = (frame % nodes, frame / nodes);
        pool.pages[n * ROW_WORDS + page] = frame as u32 + 1;
        pool.used[frame] = 1;
    }
    pool
}

/// The same over 64 nodes, the first 31 of them hidden: each over the next and a leaf, the last
/// over two leaves.
fn deep(frames: usize) -> Store {
    const HIDDEN: usize = 31;
    let mut pool = objects(frames, NODES);
    for n in 0..HIDDEN {
        let below = if n + 1 < HIDDEN { n + 1 } else { 2 * HIDDEN };
        pool.nodes[n * NODE_WORDS + node::KIND] = 3;
        for (link, child) in [(node::LEFT, below), (node::RIGHT, HIDDEN + n)] {
            pool.nodes[n * NODE_WORDS + link] = child as u32 + 1;
            pool.nodes[child * NODE_WORDS + node::PARENT] = n as u32 + 1;
        }
    }
    pool
}
