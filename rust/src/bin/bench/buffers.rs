//! What calls and references read and write beside the pools.

use goramul::{Store, MAX_FRAMES, MAX_PAGES, PAGE_SIZE};
use std::hint::black_box;

/// The bytes of 64 pages.
pub const ALL: usize = (MAX_PAGES * PAGE_SIZE) as usize;

pub struct Buffers {
    /// To be written.
    pub bytes: Vec<u8>,
    /// To be filled.
    pub buf: Vec<u8>,
    /// A memory like a pool's, so that the references go over such addresses too.
    pub memory: Vec<u8>,
}

impl Default for Buffers {
    fn default() -> Buffers {
        Buffers {
            bytes: (0..ALL).map(|i| (i / 7) as u8).collect(),
            buf: vec![0; ALL],
            memory: Store::zeros(MAX_FRAMES).memory,
        }
    }
}

/// A memcpy that the compiler doesn't see through.
pub fn copy(to: &mut [u8], from: &[u8]) {
    black_box(to).copy_from_slice(black_box(from));
}
