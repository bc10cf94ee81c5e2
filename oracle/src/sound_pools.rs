//! Random sound pools, most of which no run from a fresh pool leads to: any forest, and any windows,
//! tags, pins, policies, owners and mappings that document 01's rules allow.

use crate::kernel_hal::mem::MAX_FRAMES;
use crate::pool::Snapshot;
use crate::random::Random;
use crate::state::*;

const PAGE: usize = 4096;

/// How far a pool's numbers go. Small ones collide more, large ones reach the ends of the tables.
struct Scale {
    frames: u64,
    leaves: u64,
    size: u64,
    mappings: u64,
    /// One page in so many is absent.
    absent: u64,
    /// All nodes are of one size with whole windows, so that lookup goes all the way up.
    whole: bool,
}

const SMALL: Scale = Scale {
    frames: 24,
    leaves: 9,
    size: 4,
    mappings: 4,
    absent: 2,
    whole: false,
};

const DEEP: Scale = Scale {
    frames: 64,
    leaves: 32,
    ..SMALL
};

const LARGE: Scale = Scale {
    frames: MAX_FRAMES as u64,
    leaves: 32,
    size: PAGES as u64,
    mappings: MAPPINGS as u64,
    absent: 4,
    whole: false,
};

pub fn sound_pool(random: &mut Random) -> Snapshot {
    let scale = match random.below(8) {
        0 => LARGE,
        1 => DEEP,
        _ => SMALL,
    };
    let scale = &Scale {
        whole: random.one_in(3),
        ..scale
    };
    let frames = 1 + random.below(scale.frames) as usize;
    let mut state = State::fresh();
    state.next_owner = next_owner(random);
    plant(&mut state, scale, random);
    let mut free: Vec<usize> = (0..frames).collect();
    for n in 0..NODES {
        if state.nodes[n][KIND] != FREE {
            fill_record(&mut state, n, scale, random);
            fill_pages(&mut state, n, &mut free, scale, random);
        }
    }
    bound_starts(&mut state);
    add_mappings(&mut state, scale, random);
    let memory = (0..frames * PAGE).map(|i| (i / PAGE + 1) as u8).collect();
    Snapshot { state, memory }
}

/// Most often few owners have been given; now and then all, all but one, or none.
fn next_owner(random: &mut Random) -> u32 {
    match random.below(16) {
        0 => OWNERS_END,
        1 => OWNERS_END - 1,
        2 => 1,
        _ => 2 + random.below(6) as u32,
    }
}

/// A forest: leaves at random numbers, joined by hidden nodes at random numbers; now and then each
/// hidden node is joined with the next leaf, which makes one deep tree.
fn plant(state: &mut State, scale: &Scale, random: &mut Random) {
    let mut numbers: Vec<usize> = (0..NODES).collect();
    let mut take = |random: &mut Random| {
        let span = numbers.len().min(20) as u64;
        numbers.remove(random.below(span) as usize)
    };
    let leaves = 1 + random.below(scale.leaves);
    let mut tops: Vec<usize> = (0..leaves).map(|_| take(random)).collect();
    for leaf in &tops {
        state.nodes[*leaf][KIND] = random.pick(&[ORIGIN, SNAPSHOT]);
    }
    let deep = random.one_in(4);
    let joins = if deep {
        leaves - 1
    } else {
        random.below(leaves)
    };
    for _ in 0..joins {
        let hidden = take(random);
        let mut sides = [0; 2].map(|_| {
            let any = random.below(tops.len() as u64) as usize;
            tops.remove(if deep { 0 } else { any })
        });
        if random.one_in(2) {
            sides.reverse();
        }
        join(state, hidden, sides);
        tops.insert(0, hidden);
    }
}

fn join(state: &mut State, hidden: usize, children: [usize; 2]) {
    state.nodes[hidden][KIND] = HIDDEN;
    for (side, child) in [LEFT, RIGHT].into_iter().zip(children) {
        state.nodes[hidden][side] = child as u32 + 1;
        state.nodes[child][PARENT] = hidden as u32 + 1;
    }
}

/// Window starts; the last is the most that all owners together allow.
const STARTS: [u32; 9] = [0, 0, 0, 1, 2, 3, 60, 100_000, 64 * (OWNERS_END - 1)];

fn fill_record(state: &mut State, n: usize, scale: &Scale, random: &mut Random) {
    let next = state.next_owner as u64;
    let words = &mut state.nodes[n];
    let (mut size, mut start) = (random.below(scale.size + 1), random.pick(&STARTS));
    let cut = random.below(size + 1);
    let mut length = random.pick(&[size, cut]);
    if scale.whole {
        (size, length, start) = (scale.size, scale.size, 0);
    }
    words[SIZE] = size as u32;
    words[START] = start;
    words[END] = start + length as u32;
    words[OWNER] = random.below(next) as u32;
    if random.one_in(8) {
        words[POLICY] = random.below(4) as u32;
    }
}

fn fill_pages(
    state: &mut State,
    n: usize,
    free: &mut Vec<usize>,
    scale: &Scale,
    random: &mut Random,
) {
    let hidden = state.nodes[n][KIND] == HIDDEN;
    let may_pin = !hidden && random.one_in(6);
    let mut pins = 0;
    for page in 0..state.nodes[n][SIZE] as usize {
        if free.is_empty() || random.one_in(scale.absent) {
            continue;
        }
        let entry = Entry {
            frame: free.swap_remove(random.below(free.len() as u64) as usize),
            tag: if hidden {
                random.below(3) as u32
            } else {
                OWNED
            },
            pins: if may_pin {
                random.pick(&[0, 1, 30, 31])
            } else {
                0
            },
        };
        pins += entry.pins;
        state.nodes[n][ENTRIES + page] = entry.word();
    }
    // A hidden node's own count is free.
    let more = random.pick(&[0, 0, 1, u32::MAX - pins]);
    let counts = may_pin || hidden && random.one_in(6);
    state.nodes[n][PINS] = pins + if counts { more } else { 0 };
}

/// The starts of all windows may add up to 64 pages for each owner given.
fn bound_starts(state: &mut State) {
    let mut left = 64 * (state.next_owner - 1);
    for words in &mut state.nodes {
        if words[START] > left {
            words[END] -= words[START];
            words[START] = 0;
        }
        left -= words[START];
    }
}

/// At random numbers, in random order.
fn add_mappings(state: &mut State, scale: &Scale, random: &mut Random) {
    let leaves = state.leaves();
    let mut numbers: Vec<usize> = (0..MAPPINGS).collect();
    for _ in 0..random.below(scale.mappings + 1) {
        let number = numbers.swap_remove(random.below(numbers.len() as u64) as usize);
        let object = random.pick(&leaves);
        let first = random.below(scale.size) as usize;
        let pages = 1 + random.below(scale.size.min(PAGES as u64 - first as u64)) as usize;
        let mapping = Mapping {
            object,
            first,
            pages,
        };
        state.mappings[number] = Some(mapping);
        state.lists[object].push(number);
    }
}
