//! The calls, each with the answer that the arrays foretell.

use super::common::random::Random;
use super::{Asked, World, PAGE};
use goramul::{CutShort, Done, Notice, Notices, Object, Operation, Refusal};

impl World {
    pub fn birth(&mut self, r: &mut Random) {
        let most = if r.one_in(8) { 80 } else { 5 };
        let pages = 1 + r.below(most);
        let against = match pages {
            65.. => Some(Refusal::InvalidArgs),
            _ => (self.nodes > 63).then_some(Refusal::NoNode),
        };
        let made = self.call(against, |pool| pool.new(pages));
        assert_eq!(made.err(), against);
        self.count(against);
        if let Ok(object) = made {
            self.born(object, vec![0; (pages * PAGE) as usize], 1);
        }
    }

    fn born(&mut self, object: Object, array: Vec<u8>, nodes: usize) {
        assert!(self.arrays.insert(object.number(), array).is_none());
        self.nodes += nodes;
    }

    pub fn child(&mut self, r: &mut Random, asked: Asked) {
        let asked = self.part(r, asked);
        let Asked { offset, len, .. } = asked;
        let unaligned = !offset.is_multiple_of(PAGE) || !len.is_multiple_of(PAGE);
        let against = match self.outside(asked) {
            Some(Refusal::NoObject) => Some(Refusal::NoObject),
            _ if unaligned || len > 64 * PAGE => Some(Refusal::InvalidArgs),
            Some(why) => Some(why),
            None if self.nodes > 62 => Some(Refusal::NoNode),
            None => self.no_room(1, asked.room),
        };
        let mut list = Notices::with_room(asked.room as usize);
        let made = self.call(against, |pool| {
            pool.create_child(asked.object, offset, len, &mut list)
        });
        assert_eq!(made.err(), against);
        self.count(against);
        self.notices(&list, Operation::RemoveWrite, 1);
        if let Ok(child) = made {
            let of = &self.arrays[&asked.object.number()];
            let part = of[offset as usize..][..len as usize].to_vec();
            self.born(child, part, 2);
        }
    }

    /// The whole of an object, or the range asked, mostly cut to pages.
    fn part(&self, r: &mut Random, asked: Asked) -> Asked {
        let cut = if r.one_in(8) { 1 } else { PAGE };
        let array = self.arrays.get(&asked.object.number());
        let (offset, len) = match array.filter(|_| r.one_in(2)) {
            Some(array) => (0, array.len() as u64),
            None => (asked.offset / cut * cut, asked.len / cut * cut),
        };
        Asked {
            offset,
            len,
            ..asked
        }
    }

    pub fn write(&mut self, r: &mut Random, asked: Asked) {
        let Asked { object, offset, .. } = asked;
        let bytes: Vec<u8> = (0..asked.len).map(|_| r.below(256) as u8).collect();
        let touched = asked.pages_touched();
        let against = self.outside(asked).or(self.no_room(touched, asked.room));
        let free = self.free();
        let mut list = Notices::with_room(asked.room as usize);
        let ended = self.call(against, |pool| {
            pool.write(object, offset, &bytes, &mut list)
        });
        let done = self.ended(ended, against, free);
        self.notices(&list, Operation::Unmap, touched);
        if done.bytes > 0 {
            let written = &bytes[..done.bytes as usize];
            let array = self.arrays.get_mut(&object.number()).unwrap();
            array[offset as usize..][..written.len()].copy_from_slice(written);
        }
        let end_of_page = done.bytes == 0 || (offset + done.bytes).is_multiple_of(PAGE);
        assert!(end_of_page || ended.is_ok());
        assert!(ended.is_err() || done.bytes == asked.len);
    }

    pub fn commit(&mut self, asked: Asked) {
        let Asked {
            object,
            offset,
            len,
            room,
        } = asked;
        let against = self.outside(asked).or(self.no_room(len / PAGE, room));
        let free = self.free();
        let mut list = Notices::with_room(room as usize);
        let ended = self.call(against, |pool| pool.commit(object, offset, len, &mut list));
        let done = self.ended(ended, against, free);
        assert_eq!(done.bytes, 0);
        self.notices(&list, Operation::Unmap, len / PAGE);
    }

    /// Frames taken are the fall of the free count, and NO_MEMORY comes only where none is left.
    fn ended(
        &mut self,
        ended: Result<Done, CutShort>,
        against: Option<Refusal>,
        free: usize,
    ) -> Done {
        let (why, done) = match ended {
            Ok(done) => (None, done),
            Err(short) => (Some(short.why), short.done),
        };
        self.count(why);
        assert_eq!(done.frames as usize, free - self.free());
        if why == Some(Refusal::NoMemory) {
            assert_eq!((against, self.free()), (None, 0));
        } else {
            assert_eq!(why, against);
        }
        assert!(against.is_none() || done == Done::default());
        done
    }

    /// Each notice is to a live mapping; there are no more than pages times mappings.
    fn notices(&mut self, list: &Notices, operation: Operation, pages: u64) {
        assert!(list.len() as u64 <= pages * self.mappings);
        let live = |n: Notice| n.mapping.number() < self.mappings;
        let fits = |n: Notice| live(n) && n.pages > 0 && n.operation == operation;
        assert!(list.iter().all(fits));
        self.seen.notices += list.len();
    }

    pub fn map(&mut self, r: &mut Random, object: Object) {
        let (first, pages) = (r.below(4), 1 + r.below(4));
        let against = match self.arrays.get(&object.number()) {
            None => Some(Refusal::NoObject),
            Some(_) => (self.mappings > 63).then_some(Refusal::NoRoom),
        };
        let mapped = self.call(against, |pool| pool.append_mapping(object, first, pages));
        assert_eq!(mapped.err(), against);
        self.mappings += u64::from(mapped.is_ok());
        self.count(against);
    }

    pub fn read(&mut self, asked: Asked) {
        let against = self.outside(asked);
        let mut buf = vec![0xa5; asked.len as usize];
        let read = self.call(against, |pool| {
            pool.read(asked.object, asked.offset, &mut buf)
        });
        assert_eq!(read.err(), against);
        self.count(against);
        let array = self.arrays.get(&asked.object.number());
        match array.filter(|_| read.is_ok()) {
            Some(array) => assert!(buf == array[asked.offset as usize..][..buf.len()]),
            None => assert!(buf.iter().all(|byte| *byte == 0xa5)),
        }
    }
}
