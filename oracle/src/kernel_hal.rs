//! A stub of the kernel below the source: pages, locks and the frames of one pool.

pub const PAGE_SIZE: usize = 4096;

#[derive(Clone, Copy, PartialEq, Eq, Debug)]
pub enum CachePolicy {
    Cached,
    Uncached,
    UncachedDevice,
    WriteCombining,
}

impl CachePolicy {
    /// The policy that the public reference numbers so; none above 3.
    pub fn of_number(number: u64) -> Option<Self> {
        match number {
            0 => Some(CachePolicy::Cached),
            1 => Some(CachePolicy::Uncached),
            2 => Some(CachePolicy::UncachedDevice),
            3 => Some(CachePolicy::WriteCombining),
            _ => None,
        }
    }
}

#[derive(Clone, Copy, PartialEq, Eq, Debug)]
pub struct MMUFlags(u8);

impl MMUFlags {
    pub const READ: MMUFlags = MMUFlags(1);
    pub const WRITE: MMUFlags = MMUFlags(2);

    pub fn contains(self, other: MMUFlags) -> bool {
        self.0 & other.0 == other.0
    }
}

pub mod sync {
    use std::sync::PoisonError;

    pub use std::sync::MutexGuard;

    /// A lock that a caught panic leaves usable.
    pub struct Mutex<T>(std::sync::Mutex<T>);

    impl<T> Mutex<T> {
        pub fn new(value: T) -> Self {
            Mutex(std::sync::Mutex::new(value))
        }

        pub fn lock(&self) -> MutexGuard<'_, T> {
            self.0.lock().unwrap_or_else(PoisonError::into_inner)
        }
    }
}

/// The frames of this thread's pool. Beside what the source calls, it counts what the running call
/// takes and writes, and keeps the bytes of frames in use that the call changes, so that a call
/// that panics can be undone.
pub mod mem {
    use super::PAGE_SIZE;
    use crate::hash;
    use std::cell::RefCell;

    pub const MAX_FRAMES: usize = 1024;
    const FIRST_ADDRESS: usize = 4_194_304;
    const ZERO_ADDRESS: usize = FIRST_ADDRESS - PAGE_SIZE;

    #[derive(Clone, Copy, Default)]
    struct Marks([u64; MAX_FRAMES / 64]);

    impl Marks {
        fn has(&self, frame: usize) -> bool {
            self.0[frame / 64] >> (frame % 64) & 1 == 1
        }

        fn set(&mut self, frame: usize) {
            self.0[frame / 64] |= 1 << (frame % 64);
        }

        fn clear(&mut self, frame: usize) {
            self.0[frame / 64] &= !(1 << (frame % 64));
        }

        fn count(&self) -> usize {
            self.0.iter().map(|w| w.count_ones() as usize).sum()
        }

        fn lowest_clear(&self) -> Option<usize> {
            let word = self.0.iter().position(|w| *w != u64::MAX)?;
            Some(word * 64 + self.0[word].trailing_ones() as usize)
        }
    }

    #[derive(Default)]
    struct Memory {
        frames: usize,
        bytes: Vec<u8>,
        used: Marks,
        /// Hash of each frame's bytes, right unless `stale` marks it.
        hashes: Vec<u32>,
        stale: Marks,
        call: Call,
    }

    /// What the running call has done to the memory.
    #[derive(Default)]
    struct Call {
        used_before: Marks,
        saved: Marks,
        saved_frames: Vec<usize>,
        saved_bytes: Vec<u8>,
        taken: usize,
        may_take: usize,
        written: usize,
    }

    thread_local! {
        static MEMORY: RefCell<Memory> = RefCell::default();
    }

    fn with<T>(f: impl FnOnce(&mut Memory) -> T) -> T {
        MEMORY.with(|m| f(&mut m.borrow_mut()))
    }

    impl Memory {
        fn take(&mut self) -> Option<usize> {
            let frame = self.used.lowest_clear().filter(|f| *f < self.frames)?;
            if self.call.taken == self.call.may_take {
                return None;
            }
            self.call.taken += 1;
            self.used.set(frame);
            Some(frame)
        }

        /// The part of the memory at an address, which is about to change.
        fn change(&mut self, address: usize, len: usize) -> &mut [u8] {
            let start = address - FIRST_ADDRESS;
            let frame = start / PAGE_SIZE;
            self.save(frame);
            self.stale.set(frame);
            &mut self.bytes[start..start + len]
        }

        /// Keeps the bytes that the frame had before the call; a frame free then has none to keep.
        fn save(&mut self, frame: usize) {
            let call = &mut self.call;
            if call.used_before.has(frame) && !call.saved.has(frame) {
                call.saved.set(frame);
                call.saved_frames.push(frame);
                let page = frame * PAGE_SIZE..(frame + 1) * PAGE_SIZE;
                call.saved_bytes.extend_from_slice(&self.bytes[page]);
            }
        }

        fn hash_of(&mut self, frame: usize) -> u32 {
            if self.stale.has(frame) {
                let page = frame * PAGE_SIZE..(frame + 1) * PAGE_SIZE;
                self.hashes[frame] = hash::block_of_bytes(&self.bytes[page]);
                self.stale.clear(frame);
            }
            self.hashes[frame]
        }
    }

    /// All frames free, all bytes zero. The frames of an earlier pool must be gone.
    pub fn start(frames: usize) {
        with(|m| {
            assert_eq!(m.used.count(), 0);
            m.frames = frames;
            m.bytes.clear();
            m.bytes.resize(frames * PAGE_SIZE, 0);
            m.hashes.clear();
            m.hashes.resize(frames, 0);
            m.stale = Marks::default();
        });
        begin_call(usize::MAX);
    }

    /// A new call starts, which may take so many frames.
    pub fn begin_call(may_take: usize) {
        with(|m| {
            let call = &mut m.call;
            call.used_before = m.used;
            call.saved = Marks::default();
            call.saved_frames.clear();
            call.saved_bytes.clear();
            call.taken = 0;
            call.may_take = may_take;
            call.written = 0;
        });
    }

    /// Puts back the bytes that frames in use had before the call.
    pub fn restore_bytes() {
        with(|m| {
            for (i, frame) in m.call.saved_frames.iter().enumerate() {
                let saved = &m.call.saved_bytes[i * PAGE_SIZE..(i + 1) * PAGE_SIZE];
                m.bytes[frame * PAGE_SIZE..(frame + 1) * PAGE_SIZE].copy_from_slice(saved);
                m.stale.set(*frame);
            }
        });
    }

    /// How many frames the call has taken, given back ones too.
    pub fn taken_in_call() -> usize {
        with(|m| m.call.taken)
    }

    /// How many bytes the call has written.
    pub fn written_in_call() -> usize {
        with(|m| m.call.written)
    }

    pub fn free_frames() -> usize {
        with(|m| m.frames - m.used.count())
    }

    /// Of each frame, whether it is in use.
    pub fn used() -> Vec<bool> {
        with(|m| (0..m.frames).map(|frame| m.used.has(frame)).collect())
    }

    pub fn all_bytes() -> Vec<u8> {
        with(|m| m.bytes.clone())
    }

    pub fn set_all_bytes(bytes: &[u8]) {
        with(|m| {
            m.bytes.copy_from_slice(bytes);
            m.stale = Marks([u64::MAX; MAX_FRAMES / 64]);
        });
    }

    /// The bytes of a frame, copied.
    pub fn bytes_of(frame: usize) -> Vec<u8> {
        with(|m| m.bytes[frame * PAGE_SIZE..(frame + 1) * PAGE_SIZE].to_vec())
    }

    /// H over the frames in use, lowest first, of each its number and its bytes.
    pub fn hash_of_used() -> u32 {
        with(|m| {
            let mut h = hash::START;
            for frame in 0..m.frames {
                if m.used.has(frame) {
                    h = hash::join(hash::step(h, frame as u32), m.hash_of(frame), PAGE_SIZE);
                }
            }
            h
        })
    }

    /// The number of the frame at an address; none for the zero frame.
    pub fn number_of(address: usize) -> Option<usize> {
        if address == ZERO_ADDRESS {
            return None;
        }
        Some((address - FIRST_ADDRESS) / PAGE_SIZE)
    }

    /// A frame in use; given back when dropped.
    pub struct PhysFrame(usize);

    impl PhysFrame {
        #[allow(clippy::new_ret_no_self)]
        pub fn new() -> Option<Self> {
            with(|m| m.take()).map(PhysFrame)
        }

        pub fn new_zero() -> Option<Self> {
            let frame = Self::new()?;
            pmem_zero(frame.paddr(), PAGE_SIZE);
            Some(frame)
        }

        /// Contiguous runs aren't part of the pool.
        pub fn new_contiguous(_pages: usize, _align_log2: usize) -> Vec<Self> {
            Vec::new()
        }

        /// Takes a free frame by its number, for a tree built from a description.
        pub fn claim(number: usize) -> Self {
            with(|m| {
                assert!(number < m.frames && !m.used.has(number));
                m.used.set(number);
            });
            PhysFrame(number)
        }

        pub fn paddr(&self) -> usize {
            FIRST_ADDRESS + self.0 * PAGE_SIZE
        }
    }

    impl Drop for PhysFrame {
        fn drop(&mut self) {
            with(|m| m.used.clear(self.0));
        }
    }

    pub struct ZeroFrame;

    pub static ZERO_FRAME: ZeroFrame = ZeroFrame;

    impl ZeroFrame {
        pub fn paddr(&self) -> usize {
            ZERO_ADDRESS
        }
    }

    pub fn phys_to_virt(paddr: usize) -> usize {
        paddr
    }

    pub fn frame_flush(_paddr: usize) {}

    pub fn pmem_read(paddr: usize, buf: &mut [u8]) {
        if (ZERO_ADDRESS..FIRST_ADDRESS).contains(&paddr) {
            buf.fill(0);
            return;
        }
        let start = paddr - FIRST_ADDRESS;
        with(|m| buf.copy_from_slice(&m.bytes[start..start + buf.len()]));
    }

    pub fn pmem_write(paddr: usize, buf: &[u8]) {
        with(|m| {
            m.change(paddr, buf.len()).copy_from_slice(buf);
            m.call.written += buf.len();
        });
    }

    pub fn pmem_zero(paddr: usize, len: usize) {
        with(|m| m.change(paddr, len).fill(0));
    }

    pub fn pmem_copy(dst: usize, src: usize, len: usize) {
        with(|m| {
            let (from, to) = (src - FIRST_ADDRESS, dst - FIRST_ADDRESS);
            m.change(dst, len);
            m.bytes.copy_within(from..from + len, to);
        });
    }
}
