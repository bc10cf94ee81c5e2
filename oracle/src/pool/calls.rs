//! The calls: the refusals in document 01's order, then the source's own call.

use super::source::*;
use super::*;
use crate::vm::paged::{tree, VMObjectPaged};
use crate::vm::{CachePolicy, MMUFlags, VMObjectTrait, VmoInfo};

const LARGEST_PIN_SUM: u64 = 4_294_967_295;
const PAGE: u128 = PAGE_SIZE as u128;
const LARGEST_SIZE: u128 = PAGES as u128 * PAGE;

impl Pool {
    pub fn new_object(&mut self, pages: u64) -> Answer {
        let done = self.try_new(pages);
        self.plain(done)
    }

    fn try_new(&mut self, pages: u64) -> Answered {
        refuse_if(pages > PAGES as u64, Code::InvalidArgs)?;
        let number = self.free_slots().next().ok_or(Code::NoNode)?;
        refuse_if(self.owners_used_up(), Code::NoNode)?;
        let object = VMObjectPaged::new(pages as usize);
        self.seat_leaf(number, object);
        self.look();
        self.count_owner(number);
        Ok(number as u64)
    }

    /// Offset and length in bytes, as whole numbers.
    pub fn create_child(&mut self, object: u64, offset: u128, len: u128) -> Answer {
        let done = self.try_create_child(object, offset, len);
        self.plain(done)
    }

    fn try_create_child(&mut self, object: u64, offset: u128, len: u128) -> Answered {
        let leaf = self.leaf(object)?;
        refuse_if(
            !offset.is_multiple_of(PAGE) || !len.is_multiple_of(PAGE),
            Code::InvalidArgs,
        )?;
        refuse_if(len > LARGEST_SIZE, Code::InvalidArgs)?;
        let words = &self.state.nodes[object as usize];
        let source_refuses = words[POLICY] != 0 || words[PINS] != 0;
        let mut free = self.free_slots();
        let seats = free.next().zip(free.next());
        drop(free);
        if !source_refuses {
            self.in_range(object, offset, len)?;
            refuse_if(seats.is_none() || self.owners_used_up(), Code::NoNode)?;
            self.has_room(1)?;
        }
        let made = leaf.create_child(offset as usize, len as usize);
        assert_eq!(source_refuses, made.is_err());
        // Held until the child is found again by its own type.
        let _held = made.map_err(code_of)?;
        let (child_seat, hidden_seat) = seats.expect("tested above");
        let (hidden, child) = tree::parent_and_new_child(&leaf);
        self.addresses[hidden_seat] = hidden.as_ptr() as usize;
        self.slots[hidden_seat] = Slot::Hidden(hidden);
        self.seat_leaf(child_seat, child);
        self.look();
        self.count_owner(child_seat);
        Ok(child_seat as u64)
    }

    /// The bytes read are handed to `use_bytes`, which makes the answer's value of them.
    pub fn read(
        &mut self,
        object: u64,
        offset: u64,
        len: u64,
        use_bytes: impl FnOnce(&[u8]) -> u64,
    ) -> Answer {
        let done = self.try_read(object, offset.into(), len.into());
        self.plain(done.map(|bytes| use_bytes(&bytes)))
    }

    fn try_read(&mut self, object: u64, offset: u128, len: u128) -> Answered<Vec<u8>> {
        let leaf = self.leaf(object)?;
        leaf.read(0, &mut []).map_err(code_of)?;
        self.in_range(object, offset, len)?;
        let mut bytes = vec![0; len as usize];
        let ended = self.attempt(|| leaf.read(offset as usize, &mut bytes));
        self.finish(ended, &[])?;
        Ok(bytes)
    }

    /// Byte i of the data is (first + i * step) mod 256.
    pub fn write(&mut self, object: u64, offset: u64, first: u8, len: u64, step: u64) -> Answer {
        let free = mem::free_frames();
        let mut written = 0;
        let done = self.try_write(object, offset.into(), first, len.into(), step, &mut written);
        Answer {
            value: written as u64,
            taken: free - mem::free_frames(),
            ..self.plain(done)
        }
    }

    fn try_write(
        &mut self,
        object: u64,
        offset: u128,
        first: u8,
        len: u128,
        step: u64,
        written: &mut usize,
    ) -> Answered {
        self.leaf(object)?.write(0, &[]).map_err(code_of)?;
        self.in_range(object, offset, len)?;
        self.has_room(pages_touched(offset, len))?;
        let byte = |i: u64| (first as u64).wrapping_add(i.wrapping_mul(step)) as u8;
        let data: Vec<u8> = (0..len as u64).map(byte).collect();
        let done = self.attempt_pages(object, |leaf| leaf.write(offset as usize, &data));
        *written = mem::written_in_call();
        done.map(|()| 0)
    }

    pub fn zero(&mut self, object: u64, offset: u64, len: u64) -> Answer {
        let done = self.try_zero(object, offset.into(), len.into());
        self.plain(done)
    }

    fn try_zero(&mut self, object: u64, offset: u128, len: u128) -> Answered {
        self.leaf(object)?;
        self.in_range(object, offset, len)?;
        self.has_room(pages_touched(offset, len))?;
        self.attempt_pages(object, |leaf| leaf.zero(offset as usize, len as usize))?;
        Ok(0)
    }

    pub fn len(&self, object: u64) -> Answer {
        self.plain(self.leaf(object).map(|leaf| leaf.len() as u64))
    }

    pub fn set_len(&mut self, object: u64, len: u64) -> Answer {
        let done = self.try_set_len(object, len.into());
        self.plain(done)
    }

    fn try_set_len(&mut self, object: u64, len: u128) -> Answered {
        let leaf = self.leaf(object)?;
        refuse_if(
            !len.is_multiple_of(PAGE) || len > LARGEST_SIZE,
            Code::InvalidArgs,
        )?;
        let ended = self.attempt(|| leaf.set_len(len as usize));
        self.finish(ended, &[OWNER_TWICE])?;
        Ok(0)
    }

    pub fn commit_page(&mut self, object: u64, page: u64, writing: bool) -> Answer {
        let done = self.try_commit_page(object, page, writing);
        self.plain(done)
    }

    fn try_commit_page(&mut self, object: u64, page: u64, writing: bool) -> Answered {
        self.leaf(object)?;
        refuse_if(page >= self.size_in_pages(object), Code::OutOfRange)?;
        let flags = if writing {
            self.has_room(1)?;
            MMUFlags::WRITE
        } else {
            MMUFlags::READ
        };
        let page = page as usize;
        let address = self.attempt_pages(object, |leaf| leaf.commit_page(page, flags))?;
        Ok(mem::number_of(address).map_or(ZERO_FRAME_VALUE, |frame| frame as u64))
    }

    pub fn commit(&mut self, object: u64, offset: u64, len: u64) -> Answer {
        let free = mem::free_frames();
        let done = self.try_commit(object, offset.into(), len.into());
        Answer {
            taken: free - mem::free_frames(),
            ..self.plain(done)
        }
    }

    fn try_commit(&mut self, object: u64, offset: u128, len: u128) -> Answered {
        self.leaf(object)?;
        self.in_range(object, offset, len)?;
        self.has_room(len / PAGE)?;
        self.attempt_pages(object, |leaf| leaf.commit(offset as usize, len as usize))?;
        Ok(0)
    }

    pub fn decommit(&mut self, object: u64, offset: u64, len: u64) -> Answer {
        let done = self.try_decommit(object, offset.into(), len.into());
        self.plain(done)
    }

    fn try_decommit(&mut self, object: u64, offset: u128, len: u128) -> Answered {
        let leaf = self.leaf(object)?;
        leaf.decommit(0, 0).map_err(code_of)?;
        self.in_range(object, offset, len)?;
        let ended = self.attempt(|| leaf.decommit(offset as usize, len as usize));
        self.finish(ended, &[])?;
        Ok(0)
    }

    pub fn append_mapping(&mut self, object: u64, first: u64, pages: u64) -> Answer {
        let done = self.try_append_mapping(object, first.into(), pages.into());
        self.plain(done)
    }

    fn try_append_mapping(&mut self, object: u64, first: u128, pages: u128) -> Answered {
        let leaf = self.leaf(object)?;
        let past_end = first + pages > PAGES as u128;
        refuse_if(pages == 0 || past_end, Code::InvalidArgs)?;
        let number = self.mappings.iter().position(Option::is_none);
        let number = number.ok_or(Code::NoRoom)?;
        let (object, first, pages) = (object as usize, first as usize, pages as usize);
        let mapping = Arc::new(VmMapping {
            number,
            first,
            pages,
        });
        leaf.append_mapping(Arc::downgrade(&mapping));
        self.mappings[number] = Some(Live { object, mapping });
        self.look();
        Ok(number as u64)
    }

    pub fn remove_mapping(&mut self, object: u64, number: u64) -> Answer {
        let done = self.leaf(object).map(|leaf| {
            let ours = |m: &Live| m.mapping.number as u64 == number && m.object as u64 == object;
            if let Some(live) = self.mappings.iter().flatten().find(|m| ours(m)) {
                leaf.remove_mapping(Arc::downgrade(&live.mapping));
                self.mappings[number as usize] = None;
                self.look();
            }
            0
        });
        self.plain(done)
    }

    pub fn info(&self, object: u64) -> Answer {
        self.plain(self.leaf(object).map(|leaf| {
            let mut info = VmoInfo::default();
            leaf.complete_info(&mut info);
            let fields = [
                info.flags as u64,
                info.num_mappings,
                info.share_count,
                info.committed_bytes,
            ];
            hash::of_numbers(&fields) as u64
        }))
    }

    pub fn cache_policy(&self, object: u64) -> Answer {
        self.plain(self.leaf(object).map(|leaf| leaf.cache_policy() as u64))
    }

    pub fn set_cache_policy(&mut self, object: u64, policy: u64) -> Answer {
        let done = self.try_set_cache_policy(object, policy);
        self.plain(done)
    }

    fn try_set_cache_policy(&mut self, object: u64, policy: u64) -> Answered {
        let leaf = self.leaf(object)?;
        let policy = CachePolicy::of_number(policy).ok_or(Code::InvalidArgs)?;
        let ended = self.attempt(|| leaf.set_cache_policy(policy));
        self.finish(ended, &[])?;
        Ok(0)
    }

    /// Start and end in pages.
    pub fn count(&self, object: u64, start: u64, end: u64) -> Answer {
        self.plain(self.try_count(object, start, end))
    }

    fn try_count(&self, object: u64, start: u64, end: u64) -> Answered {
        let leaf = self.leaf(object)?;
        let size = self.size_in_pages(object);
        let outside = (start != 0 && start >= size) || end > size;
        refuse_if(outside, Code::OutOfRange)?;
        Ok(leaf.committed_pages_in_range(start as usize, end as usize) as u64)
    }

    pub fn pin(&mut self, object: u64, offset: u64, len: u64) -> Answer {
        let done = self.try_pin(object, offset.into(), len.into());
        self.plain(done)
    }

    fn try_pin(&mut self, object: u64, offset: u128, len: u128) -> Answered {
        let leaf = self.leaf(object)?;
        self.in_range(object, offset, len)?;
        let sum = self.pin_sum(object) + pages_touched(offset, len) as u64;
        let ended = self.attempt(|| leaf.pin(offset as usize, len as usize));
        // The source has no test of the sum; the added one comes after its page tests.
        if matches!(ended, Ended::Result(Ok(()))) && sum > LARGEST_PIN_SUM {
            self.undo();
            return Err(Code::Unavailable);
        }
        self.finish(ended, &[PIN_ABSENT])?;
        Ok(0)
    }

    pub fn unpin(&mut self, object: u64, offset: u64, len: u64) -> Answer {
        let done = self.try_unpin(object, offset.into(), len.into());
        self.plain(done)
    }

    fn try_unpin(&mut self, object: u64, offset: u128, len: u128) -> Answered {
        let leaf = self.leaf(object)?;
        self.in_range(object, offset, len)?;
        let short = self.pin_sum(object) < pages_touched(offset, len) as u64;
        let ended = self.attempt(|| leaf.unpin(offset as usize, len as usize));
        if short && matches!(ended, Ended::Panic(UNPIN_NO_PINS | UNPIN_FEW_PINS)) {
            self.undo();
            return Err(Code::PinLedger);
        }
        self.finish(ended, &[UNPIN_ABSENT])?;
        Ok(0)
    }

    pub fn close(&mut self, object: u64) -> Answer {
        let done = self.try_close(object);
        self.plain(done)
    }

    fn try_close(&mut self, object: u64) -> Answered {
        let leaf = self.leaf(object)?;
        let number = object as usize;
        let mapped = !self.state.lists[number].is_empty();
        refuse_if(mapped, Code::BadState)?;
        self.slots[number] = Slot::Free;
        assert_eq!(Arc::strong_count(&leaf), 1);
        let ended = self.attempt(|| {
            drop(leaf);
            Ok(())
        });
        self.finish(ended, &[OWNER_TWICE, CLOSE_PINNED])?;
        Ok(0)
    }

    /// One page's bytes as a read would give them; none when read would refuse.
    pub fn peek(&self, object: u64, page: u64) -> Option<Vec<u8>> {
        self.leaf(object).ok()?;
        let number = object as usize;
        if page >= self.size_in_pages(object) || self.state.nodes[number][POLICY] != 0 {
            return None;
        }
        let frame = self.state.frame_read(number, page as usize);
        Some(frame.map_or_else(|| vec![0; PAGE_SIZE], mem::bytes_of))
    }

    /// Whether the free frames are at least as many as the pages of the range without a frame in
    /// the leaf.
    pub fn forecast(&self, object: u64, offset: u64, len: u64) -> Answer {
        self.plain(self.try_forecast(object, offset.into(), len.into()))
    }

    fn try_forecast(&self, object: u64, offset: u128, len: u128) -> Answered {
        self.leaf(object)?;
        self.in_range(object, offset, len)?;
        let first = (offset / PAGE) as usize;
        let pages = first..first + pages_touched(offset, len) as usize;
        let lacks = |page: &usize| self.state.entry(object as usize, *page).is_none();
        let enough = pages.filter(lacks).count() <= mem::free_frames();
        Ok(enough.into())
    }

    pub(super) fn leaf(&self, object: u64) -> Answered<Node> {
        let number = usize::try_from(object).ok();
        match number.and_then(|n| self.slots.get(n)) {
            Some(Slot::Leaf(leaf)) => Ok(leaf.clone()),
            _ => Err(Code::NoObject),
        }
    }

    fn size_in_pages(&self, object: u64) -> u64 {
        self.state.nodes[object as usize][SIZE] as u64
    }

    fn pin_sum(&self, object: u64) -> u64 {
        self.state.nodes[object as usize][PINS] as u64
    }

    fn in_range(&self, object: u64, offset: u128, len: u128) -> Answered<()> {
        let size = self.size_in_pages(object) as u128 * PAGE;
        refuse_if(offset + len > size, Code::OutOfRange)
    }

    fn has_room(&self, pages: u128) -> Answered<()> {
        let needed = pages * self.state.live_mappings() as u128;
        refuse_if(needed > self.room as u128, Code::NoRoom)
    }

    fn owners_used_up(&self) -> bool {
        self.state.next_owner == OWNERS_END
    }
}

/// How many pages a byte range touches.
fn pages_touched(offset: u128, len: u128) -> u128 {
    if len == 0 {
        return 0;
    }
    (offset + len).div_ceil(PAGE) - offset / PAGE
}
