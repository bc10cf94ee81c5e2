//! A stub of the modules around the source: its errors, its trait, and mappings that record what
//! they are told.

use crate::kernel_hal::sync::MutexGuard;
use std::cell::RefCell;
use std::sync::{Arc, Weak};

// The source names these through its parent module.
pub use crate::kernel_hal;
pub use crate::kernel_hal::{CachePolicy, MMUFlags, PAGE_SIZE};

#[allow(warnings, clippy::all)]
pub mod paged;

pub type PhysAddr = usize;
pub type KoID = u64;
pub const PAGE_SIZE_LOG2: usize = PAGE_SIZE.trailing_zeros() as usize;

pub fn page_aligned(x: usize) -> bool {
    x.is_multiple_of(PAGE_SIZE)
}

pub fn pages(size: usize) -> usize {
    size.wrapping_add(PAGE_SIZE - 1) / PAGE_SIZE
}

#[allow(non_camel_case_types)]
#[derive(Clone, Copy, PartialEq, Eq, Debug)]
pub enum ZxError {
    OUT_OF_RANGE,
    BAD_STATE,
    INVALID_ARGS,
    NO_MEMORY,
    NOT_SUPPORTED,
    UNAVAILABLE,
}

pub type ZxResult<T = ()> = Result<T, ZxError>;

/// The allocation counters are left out of the port.
pub struct Counter;

impl Counter {
    pub fn add(&self, _n: usize) {}
}

pub static VMO_PAGE_ALLOC: Counter = Counter;
pub static VMO_PAGE_DEALLOC: Counter = Counter;

pub struct VmoInfoFlags;

impl VmoInfoFlags {
    pub const TYPE_PAGED: u32 = 1;
    pub const IS_COW_CLONE: u32 = 4;
    pub const CONTIGUOUS: u32 = 64;
}

/// The fields of the info that the source fills.
#[derive(Default)]
pub struct VmoInfo {
    pub flags: u32,
    pub num_mappings: u64,
    pub share_count: u64,
    pub committed_bytes: u64,
    pub populated_bytes: u64,
    pub committed_private_bytes: u64,
    pub populated_private_bytes: u64,
    pub committed_scaled_bytes: u64,
    pub populated_scaled_bytes: u64,
}

#[derive(Clone, Copy, PartialEq, Eq, Debug)]
pub enum RangeChangeOp {
    Unmap = 1,
    RemoveWrite = 2,
}

/// What a mapping was told: pages are counted from the mapping's first.
#[derive(Clone, Copy, PartialEq, Eq, Debug)]
pub struct Notice {
    pub mapping: usize,
    pub first: usize,
    pub pages: usize,
    pub op: RangeChangeOp,
}

thread_local! {
    static NOTICES: RefCell<Vec<Notice>> = const { RefCell::new(Vec::new()) };
}

/// The notices since the last taking.
pub fn take_notices() -> Vec<Notice> {
    NOTICES.take()
}

/// A mapping shows `pages` pages of its object from page `first` on.
pub struct VmMapping {
    pub number: usize,
    pub first: usize,
    pub pages: usize,
}

impl VmMapping {
    /// The overlap as vmar.rs has it, with its `vmo_offset` counted in pages.
    pub fn range_change(&self, offset: usize, len: usize, op: RangeChangeOp) {
        let start = offset.max(self.first);
        let end = (self.first + self.pages).min(offset + len);
        if start < end {
            let notice = Notice {
                mapping: self.number,
                first: start - self.first,
                pages: end - start,
                op,
            };
            NOTICES.with_borrow_mut(|all| all.push(notice));
        }
    }
}

/// The trait of vmo/mod.rs.
#[allow(
    clippy::len_without_is_empty,
    clippy::mut_from_ref,
    clippy::type_complexity
)]
pub trait VMObjectTrait: Sync + Send {
    fn read(&self, offset: usize, buf: &mut [u8]) -> ZxResult;
    fn write(&self, offset: usize, buf: &[u8]) -> ZxResult;
    fn zero(&self, offset: usize, len: usize) -> ZxResult;
    fn len(&self) -> usize;
    fn set_len(&self, len: usize) -> ZxResult;
    fn commit_page(&self, page_idx: usize, flags: MMUFlags) -> ZxResult<PhysAddr>;
    fn commit_pages_with(
        &self,
        f: &mut dyn FnMut(&mut dyn FnMut(usize, MMUFlags) -> ZxResult<PhysAddr>) -> ZxResult,
    ) -> ZxResult;
    fn commit(&self, offset: usize, len: usize) -> ZxResult;
    fn decommit(&self, offset: usize, len: usize) -> ZxResult;
    fn create_child(&self, offset: usize, len: usize) -> ZxResult<Arc<dyn VMObjectTrait>>;
    fn append_mapping(&self, mapping: Weak<VmMapping>);
    fn remove_mapping(&self, mapping: Weak<VmMapping>);
    fn complete_info(&self, info: &mut VmoInfo);
    fn cache_policy(&self) -> CachePolicy;
    fn set_cache_policy(&self, policy: CachePolicy) -> ZxResult;
    fn committed_pages_in_range(&self, start_idx: usize, end_idx: usize) -> usize;
    fn pin(&self, offset: usize, len: usize) -> ZxResult;
    fn unpin(&self, offset: usize, len: usize) -> ZxResult;
    fn is_contiguous(&self) -> bool;
    fn is_paged(&self) -> bool;
    fn as_mut_buf(&self) -> ZxResult<(MutexGuard<'_, ()>, &mut [u8])>;
    fn unset_contiguous(&self);
}
