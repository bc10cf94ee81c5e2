//! The unchanged source of the VM object, run behind the trace format.
//!
//! `vm::paged` includes the source text over a small stub of the kernel (`kernel_hal`, `vm`).
//! `pool` numbers nodes, frames and mappings and adds the refusals of document 01.

extern crate alloc;

pub mod coverage;
pub mod cowlines;
pub mod generate;
pub mod hash;
pub mod kernel_hal;
pub mod lines;
pub mod pool;
pub mod random;
pub mod sound;
pub mod sound_pools;
pub mod state;
pub mod trace;
pub mod util;
pub mod vm;
