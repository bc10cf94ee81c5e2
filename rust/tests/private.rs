//! An object seen from outside: two pools that are alike in nothing but the writes to one object
//! give the same bytes at every read of it. Number of frames, other objects, family, mappings, and
//! what is read, committed or cloned in between all differ.

mod common;

use common::random::Random;
use goramul::{Done, Notices, Object, Pool, Refusal};

const PAGE: u64 = 4096;

/// One of the pools, with its own random numbers for all that isn't alike.
struct Side {
    pool: Pool<'static>,
    r: Random,
    list: Notices,
    others: Vec<Object>,
    /// The object that is alike in both.
    object: Option<Object>,
}

impl Side {
    /// Few frames are soon used up, and then a write is answered in only one of the pools.
    fn new(seed: u64) -> Side {
        let mut r = Random::new(seed);
        let most = [8, 80, 1024][r.index(3)];
        Side {
            pool: Pool::start(1 + r.index(most)).unwrap(),
            r,
            list: Notices::enough(),
            others: Vec::new(),
            object: None,
        }
    }

    /// A few calls that aren't alike.
    fn stir(&mut self) {
        for _ in 0..self.r.below(6) {
            let any = self.any();
            match (self.r.below(8), any) {
                (0, _) | (_, None) => self.adopt(|pool, _, r| pool.new(r.below(7))),
                (1..=2, Some(of)) => self.adopt(|pool, list, r| {
                    let pages = pool.len(of)? / PAGE;
                    let first = r.below(pages + 1);
                    let count = r.below(pages - first + 1);
                    pool.create_child(of, first * PAGE, count * PAGE, list)
                }),
                (3, Some(of)) => {
                    let _no_room = self.pool.append_mapping(of, 0, 1 + self.r.below(4));
                }
                (4..=5, Some(of)) if self.object != Some(of) => {
                    let _cut_short = self.write_any(of);
                }
                (_, Some(of)) => self.look(of),
            }
        }
    }

    /// Any object, the one that is alike too.
    fn any(&mut self) -> Option<Object> {
        let all: Vec<Object> = self.others.iter().copied().chain(self.object).collect();
        (!all.is_empty()).then(|| all[self.r.index(all.len())])
    }

    /// Makes an object of this pool's own, unless few nodes are left: no call frees one.
    fn adopt(
        &mut self,
        make: impl FnOnce(&mut Pool<'_>, &mut Notices, &mut Random) -> Result<Object, Refusal>,
    ) {
        let free = self.pool.view().nodes.chunks(16).filter(|n| n[0] == 0);
        if free.count() > 5 {
            let made = make(&mut self.pool, &mut self.list, &mut self.r);
            self.others.extend(made.ok());
        }
    }

    fn write_any(&mut self, of: Object) -> Result<Done, Refusal> {
        let size = self.pool.len(of)?;
        let offset = self.r.below(size + 1);
        let len = self.r.below(size - offset + 1);
        let bytes = vec![self.r.below(256) as u8; len as usize];
        Ok(self.pool.write(of, offset, &bytes, &mut self.list)?)
    }

    /// A read or a commit of a whole object: it may move pages or take frames, but changes no byte.
    fn look(&mut self, of: Object) {
        let size = self.pool.len(of).unwrap();
        if self.r.one_in(2) {
            let mut buf = vec![0; size as usize];
            self.pool.read(of, 0, &mut buf).unwrap();
        } else {
            let _cut_short = self.pool.commit(of, 0, size, &mut self.list);
        }
    }

    fn bytes(&mut self) -> Vec<u8> {
        let object = self.object.unwrap();
        let mut buf = vec![0; self.pool.len(object).unwrap() as usize];
        self.pool.read(object, 0, &mut buf).unwrap();
        buf
    }
}

/// How often reads were compared; a run ends where the answers to a write differ.
#[derive(Default, Debug)]
struct Seen {
    reads: usize,
    writes: usize,
    refused: usize,
    ended: usize,
}

/// The same write to the object of both pools; whether both answered alike but for the frames that
/// they took.
fn write(sides: &mut [Side; 2], r: &mut Random) -> (bool, bool) {
    let size = sides[0].pool.len(sides[0].object.unwrap()).unwrap();
    let offset = r.below(size + 1);
    let len = r.below(size - offset + 2);
    let bytes: Vec<u8> = (0..len).map(|_| r.below(256) as u8).collect();
    let [a, b] = sides.each_mut().map(|side| {
        let object = side.object.unwrap();
        let ended = side.pool.write(object, offset, &bytes, &mut side.list);
        match ended {
            Ok(done) => (None, done.bytes),
            Err(short) => (Some(short.why), short.done.bytes),
        }
    });
    (a == b, a.0.is_some())
}

/// The object: fresh, or a child of an object that was written alike.
fn birth(sides: &mut [Side; 2], r: &mut Random) -> Option<()> {
    let (pages, byte) = (1 + r.below(6), r.below(256) as u8);
    let first = r.below(pages);
    let count = 1 + r.below(pages - first);
    let as_child = r.one_in(2);
    for side in sides {
        let parent = side.pool.new(pages).ok()?;
        side.object = Some(parent);
        if as_child {
            let bytes = vec![byte; (pages * PAGE) as usize];
            side.pool
                .write(parent, 7, &bytes[7..], &mut side.list)
                .ok()?;
            side.others.push(parent);
            let (offset, len) = (first * PAGE, count * PAGE);
            let child = side.pool.create_child(parent, offset, len, &mut side.list);
            side.object = Some(child.ok()?);
        }
    }
    Some(())
}

fn run(seed: u64, seen: &mut Seen) {
    let mut r = Random::new(seed);
    let mut sides = [Side::new(3 * seed + 1), Side::new(3 * seed + 2)];
    sides.iter_mut().for_each(Side::stir);
    if birth(&mut sides, &mut r).is_none() {
        return;
    }
    for _ in 0..60 {
        sides.iter_mut().for_each(Side::stir);
        if r.one_in(2) {
            let [a, b] = sides.each_mut().map(Side::bytes);
            assert!(a == b, "seed {seed}");
            seen.reads += 1;
            continue;
        }
        let (alike, refused) = write(&mut sides, &mut r);
        seen.writes += 1;
        seen.refused += usize::from(refused);
        if !alike {
            seen.ended += 1;
            return;
        }
    }
}

#[test]
fn an_objects_bytes_are_what_was_written_to_it() {
    let mut seen = Seen::default();
    for seed in 0..1500 {
        run(seed, &mut seen);
    }
    println!("{seen:?}");
    assert!(seen.reads > 10_000 && seen.writes > 10_000);
    assert!(seen.refused > 100 && seen.ended > 100);
}
