//! Random traces on the source: what every call must leave behind.

use oracle::generate::{Generator, LETTERS};
use oracle::kernel_hal::mem;
use oracle::pool::{Answer, Code, Pool, Snapshot};
use oracle::sound;
use oracle::state::*;
use oracle::trace::Trace;

fn assert_sound(pool: &Pool, line: &[u8]) {
    if let Some(rule) = sound::broken(pool.state(), &mem::used()) {
        panic!("after {}: {rule}", String::from_utf8_lossy(line));
    }
}

/// Runs a random trace; `each` gets the pool before, the line, its answer and the pool after.
fn run(seed: u64, calls: usize, each: impl Fn(&Snapshot, &[u8], Option<&Answer>, &Pool)) {
    let mut trace = Trace::default();
    let mut generator = Generator::new(seed, LETTERS, 64);
    for _ in 0..calls {
        let line = generator.line(trace.pool());
        let before = trace.pool().snapshot();
        let answer = trace.call(&line);
        each(&before, &line, answer.as_ref(), trace.pool());
    }
}

fn used_frames(snapshot: &Snapshot) -> Vec<usize> {
    let state = &snapshot.state;
    let entries = (0..64).flat_map(|n| (0..64).filter_map(move |page| state.entry(n, page)));
    let mut frames: Vec<usize> = entries.map(|entry| entry.frame).collect();
    frames.sort();
    frames
}

/// The bytes of frames in use; those of free frames are nobody's.
fn used_bytes(snapshot: &Snapshot) -> Vec<u8> {
    let frames = used_frames(snapshot);
    let pages = frames
        .iter()
        .map(|f| &snapshot.memory[f * 4096..(f + 1) * 4096]);
    pages.flatten().copied().collect()
}

/// H as TRACE.md defines it, number by number.
fn by_definition(numbers: impl Iterator<Item = u64>) -> u64 {
    let step = |h: u64, x: u64| (h * 16_777_619 + x) % (1 << 32);
    numbers.fold(2_166_136_261, step)
}

/// TREE, MAPS and MEM as TRACE.md defines them.
fn hashes_by_definition(snapshot: &Snapshot) -> [u64; 3] {
    let state = &snapshot.state;
    let tree = state.nodes.iter().flatten().map(|word| *word as u64);
    let mut maps = Vec::new();
    for mapping in &state.mappings {
        let words = mapping.map_or([0; 3], |m| [m.object + 1, m.first, m.pages]);
        maps.extend(words);
    }
    for list in &state.lists {
        maps.push(list.len());
        maps.extend(list);
    }
    let mut memory = Vec::new();
    for frame in used_frames(snapshot) {
        memory.push(frame as u64);
        let page = &snapshot.memory[frame * 4096..(frame + 1) * 4096];
        memory.extend(page.iter().map(|byte| *byte as u64));
    }
    [
        by_definition(tree),
        by_definition(maps.into_iter().map(|x| x as u64)),
        by_definition(memory.into_iter()),
    ]
}

#[test]
fn an_answer_line_is_as_defined() {
    let mut trace = Trace::default();
    let mut generator = Generator::new(50, LETTERS, 64);
    for _ in 0..3000 {
        let line = generator.line(trace.pool());
        let text = trace.answer(&line);
        let numbers: Vec<u64> = text
            .split(' ')
            .map(|x| x.parse().expect("a number"))
            .collect();
        let after = trace.pool().snapshot();
        if text == "3 0" {
            continue;
        }
        assert_eq!(numbers[3], mem::free_frames() as u64);
        assert_eq!(numbers[4], after.state.next_owner as u64);
        assert_eq!(numbers[5..8], hashes_by_definition(&after));
        assert_eq!(numbers.len() as u64, 9 + 4 * numbers[8]);
    }
}

#[test]
fn every_call_leaves_a_sound_pool() {
    for seed in 0..20 {
        run(seed, 3000, |_, line, _, pool| assert_sound(pool, line));
    }
}

/// Why line 904 of the source isn't reached from a fresh pool: a hidden node's owner is a child's,
/// and nodes that share an owner stand on one parent chain.
#[test]
fn equal_owners_stand_on_one_chain() {
    run(150, 20_000, |_, line, _, pool| {
        let state = pool.state();
        let live = |n: &usize| state.nodes[*n][KIND] != FREE;
        for words in state.nodes.iter().filter(|words| words[KIND] == HIDDEN) {
            let child_owner = |side: usize| state.nodes[words[side] as usize - 1][OWNER];
            let owners = [child_owner(LEFT), child_owner(RIGHT)];
            assert!(owners.contains(&words[OWNER]));
        }
        for a in (0..NODES).filter(live) {
            for b in (0..a).filter(live) {
                let same = state.nodes[a][OWNER] == state.nodes[b][OWNER];
                let chain = is_above(state, a, b) || is_above(state, b, a);
                assert!(!same || chain, "after {}", String::from_utf8_lossy(line));
            }
        }
    });
}

fn is_above(state: &State, above: usize, below: usize) -> bool {
    let mut at = state.parent(below);
    while let Some(node) = at.filter(|node| *node != above) {
        at = state.parent(node);
    }
    at.is_some()
}

#[test]
fn refused_calls_change_nothing() {
    run(100, 20_000, |before, line, answer, pool| {
        let whole = b"xtpvg".contains(line.first().unwrap_or(&b' '));
        let changes = match answer.map(|a| a.code) {
            None => false,
            Some(Code::Ok | Code::NoMemory) => true,
            Some(Code::Stopped) => !whole,
            Some(_) => false,
        };
        if !changes {
            let after = pool.snapshot();
            let line = String::from_utf8_lossy(line);
            assert_eq!(before.state, after.state, "after {line}");
            assert_eq!(used_bytes(before), used_bytes(&after), "after {line}");
            assert!(answer.is_none_or(|a| a.notices.is_empty()));
            assert!(answer.is_none_or(|a| a.code == Code::Ok || a.value == 0));
        }
    });
}

#[test]
fn a_rebuilt_pool_answers_alike() {
    let (seed, calls) = (200, 6000);
    let mut trace = Trace::default();
    let mut generator = Generator::new(seed, LETTERS, 64);
    let mut answers = Vec::new();
    for _ in 0..calls {
        let line = generator.line(trace.pool());
        answers.push((line.clone(), trace.answer(&line)));
    }
    drop(trace);
    let mut trace = Trace::default();
    for (line, answer) in answers {
        let snapshot = trace.pool().snapshot();
        trace.pool_mut().rebuild(&snapshot);
        assert_eq!(trace.pool().snapshot(), snapshot);
        assert_eq!(
            trace.answer(&line),
            answer,
            "{}",
            String::from_utf8_lossy(&line)
        );
    }
}

#[test]
fn peek_is_what_a_read_gives() {
    let mut trace = Trace::default();
    let mut generator = Generator::new(300, LETTERS, 64);
    for _ in 0..4000 {
        let line = generator.line(trace.pool());
        trace.call(&line);
        let snapshot = trace.pool().snapshot();
        let pool = trace.pool_mut();
        for object in 0..66 {
            let mut read = None;
            let page = object % 3;
            pool.read(object, page * 4096, 4096, |bytes| {
                read = Some(bytes.to_vec());
                0
            });
            let read_moved = pool.state() != &snapshot.state;
            if read_moved {
                pool.rebuild(&snapshot);
            }
            assert_eq!(pool.peek(object, page), read);
        }
    }
}
