//! Every object beside a plain array of bytes, through random runs of new, create_child, read,
//! write, commit and append_mapping, refused ones too. The arrays foretell every answer but
//! NO_MEMORY.

#[path = "../common/mod.rs"]
mod common;

mod calls;

use common::random::Random;
use goramul::report::Report;
use goramul::{Object, Pool, Refusal};
use std::collections::BTreeMap;

const PAGE: u64 = 4096;

struct World {
    pool: Pool<'static>,
    arrays: BTreeMap<u64, Vec<u8>>,
    /// Live nodes, hidden ones too.
    nodes: usize,
    mappings: u64,
    seen: Seen,
}

#[derive(Default, Debug)]
struct Seen {
    accepted: usize,
    refused: BTreeMap<&'static str, usize>,
    notices: usize,
}

/// A range of an object, and the room for notices.
#[derive(Clone, Copy)]
struct Asked {
    object: Object,
    offset: u64,
    len: u64,
    room: u64,
}

impl Asked {
    fn pages_touched(self) -> u64 {
        let end = u128::from(self.offset) + u128::from(self.len);
        match self.len {
            0 => 0,
            _ => end.div_ceil(PAGE.into()) as u64 - self.offset / PAGE,
        }
    }
}

impl World {
    fn new(frames: usize) -> World {
        World {
            pool: Pool::start(frames).unwrap(),
            arrays: BTreeMap::new(),
            nodes: 0,
            mappings: 0,
            seen: Seen::default(),
        }
    }

    fn step(&mut self, r: &mut Random) {
        let asked = self.asked(r);
        match r.below(16) {
            0 => self.birth(r),
            1..=3 => self.child(r, asked),
            4..=8 => self.write(r, asked),
            9..=10 => self.commit(asked),
            11..=12 => self.map(r, asked.object),
            _ => self.read(asked),
        }
        self.arrays_read_so(r.one_in(16), r.index(64));
    }

    /// Mostly a live object and a range inside it.
    fn asked(&self, r: &mut Random) -> Asked {
        let nth = r.index(self.arrays.len().max(1));
        let live = self.arrays.keys().nth(nth).copied();
        let number = live.filter(|_| !r.one_in(20)).unwrap_or(r.below(70));
        let size = self.arrays.get(&number).map_or(PAGE, |a| a.len() as u64);
        let offset = r.below(size + 1);
        let len = r.below(size - offset + 1);
        let (offset, len) = match r.below(8) {
            0 => (0, size),
            1..=2 => (offset / PAGE * PAGE, len / PAGE * PAGE),
            3 => (offset, len + r.below(2 * PAGE)),
            4 if r.one_in(4) => (u64::MAX - offset, len),
            _ => (offset, len),
        };
        Asked {
            object: Object::from_number(number),
            offset,
            len,
            room: if r.one_in(4) { r.below(20) } else { 4096 },
        }
    }

    /// What stands against a range.
    fn outside(&self, asked: Asked) -> Option<Refusal> {
        let Some(array) = self.arrays.get(&asked.object.number()) else {
            return Some(Refusal::NoObject);
        };
        let end = u128::from(asked.offset) + u128::from(asked.len);
        (end > array.len() as u128).then_some(Refusal::OutOfRange)
    }

    fn no_room(&self, pages: u64, room: u64) -> Option<Refusal> {
        (pages * self.mappings > room).then_some(Refusal::NoRoom)
    }

    /// Makes a call. If something stands against it from the start, it changes nothing.
    fn call<T>(&mut self, against: Option<Refusal>, call: impl FnOnce(&mut Pool<'_>) -> T) -> T {
        let before = against.map(|_| Report::of(self.pool.view()));
        let answer = call(&mut self.pool);
        if let Some(before) = before {
            assert_eq!(Report::of(self.pool.view()), before);
        }
        answer
    }

    fn count(&mut self, refused: Option<Refusal>) {
        match refused {
            None => self.seen.accepted += 1,
            Some(why) => *self.seen.refused.entry(why.name()).or_default() += 1,
        }
    }

    fn free(&self) -> usize {
        let used = self.pool.view().used;
        used.iter().filter(|flag| **flag == 0).count()
    }

    /// Peek shows every array, or one of them.
    fn arrays_read_so(&self, all: bool, one: usize) {
        let one = one % self.arrays.len().max(1);
        let shown = self.arrays.iter().enumerate();
        for (_, (number, array)) in shown.filter(|(i, _)| all || *i == one) {
            let object = Object::from_number(*number);
            for (page, bytes) in (0..).zip(array.chunks(PAGE as usize)) {
                assert_eq!(self.pool.peek(object, page), Some(bytes));
            }
            let past = array.len() as u64 / PAGE;
            assert_eq!(self.pool.peek(object, past), None);
        }
    }
}

impl Seen {
    fn add(&mut self, more: Seen) {
        self.accepted += more.accepted;
        self.notices += more.notices;
        for (why, n) in more.refused {
            *self.refused.entry(why).or_default() += n;
        }
    }
}

#[test]
fn objects_are_arrays() {
    let mut all = Seen::default();
    for seed in 0..1000 {
        let mut r = Random::new(seed);
        let most = if r.one_in(4) { 1024 } else { 48 };
        let mut world = World::new(1 + r.index(most));
        world.birth(&mut r);
        for _ in 0..40 + r.index(160) {
            world.step(&mut r);
        }
        assert!(world.pool.is_sound());
        all.add(world.seen);
    }
    println!("{all:?}");
    let refused: Vec<&str> = all.refused.keys().copied().collect();
    assert_eq!(refused, REFUSED);
    assert!(all.accepted > 50_000 && all.notices > 2000);
}

const REFUSED: [&str; 6] = [
    "INVALID_ARGS",
    "NO_MEMORY",
    "NO_NODE",
    "NO_OBJECT",
    "NO_ROOM",
    "OUT_OF_RANGE",
];
