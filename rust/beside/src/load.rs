//! The Rust's pool, put in the library's tables.

use goramul::tables::{node, MAPPING_WORDS, NEXT_OWNER, NODE_WORDS, ROW_WORDS};
use goramul::{Pool, Tables};
use oracle::kernel_hal::mem;
use oracle::state::{self, State, Words};

/// The place of a word in a record, and in the words of a written tree.
const PLACES: [(usize, usize); 10] = [
    (node::KIND, state::KIND),
    (node::PARENT, state::PARENT),
    (node::LEFT, state::LEFT),
    (node::RIGHT, state::RIGHT),
    (node::START, state::START),
    (node::END, state::END),
    (node::SIZE, state::SIZE),
    (node::OWNER, state::OWNER),
    (node::POLICY, state::POLICY),
    (node::PINS, state::PINS),
];

/// For pools of the same number of frames.
pub fn load(pool: &mut Pool<'_>, from: &oracle::pool::Pool) {
    let mut tables = pool.tables();
    let state = from.state();
    for (n, words) in state.nodes.iter().enumerate() {
        load_node(&mut tables, n, words);
    }
    tables.head[NEXT_OWNER] = state.next_owner;
    load_mappings(tables.mappings, state);
    for (flag, used) in tables.used.iter_mut().zip(mem::used()) {
        *flag = used.into();
    }
    tables.memory.copy_from_slice(&mem::all_bytes());
    assert!(pool.is_sound(), "the Rust has a sound pool");
}

fn load_node(tables: &mut Tables<'_>, n: usize, words: &Words) {
    for (place, word) in PLACES {
        tables.nodes[n * NODE_WORDS + place] = words[word];
    }
    let row = &mut tables.pages[n * ROW_WORDS..][..ROW_WORDS];
    row.copy_from_slice(&words[state::ENTRIES..][..ROW_WORDS]);
}

/// The first of each object, then the second: only the order of an object's own mappings is told.
fn load_mappings(mappings: &mut [u32], state: &State) {
    mappings.fill(0);
    let rounds = state.lists.iter().map(Vec::len).max().unwrap_or(0);
    let round = |nth| state.lists.iter().filter_map(move |list| list.get(nth));
    let numbers = (0..rounds).flat_map(round);
    for (place, number) in mappings.chunks_exact_mut(MAPPING_WORDS).zip(numbers) {
        let mapping = state.mappings[*number].expect("a list has live mappings");
        let words = [number + 1, mapping.object, mapping.first, mapping.pages];
        place.copy_from_slice(&words.map(|word| word as u32));
    }
}
