//! Copy-on-write memory objects: zCore's page tree, ported to Rattle, a proved systems language.
//!
//! A [`Pool`] has 64 nodes for objects and 1 to 1,024 frames of a page each. An [`Object`] has up
//! to 64 pages. A call gives its value or says by a [`Refusal`] why not.
//!
//! A stop of a timeline: its table is written, the stop is a child of it, the table is written on,
//! and the stop still reads the old bytes. Only the page that was written after the stop is copied.
//!
//! ```
//! use goramul::{Notices, Pool, Refusal, PAGE_SIZE};
//!
//! let mut pool = Pool::start(6)?;
//! let mut notices = Notices::with_room(0);
//! let table = pool.new(2)?;
//! let done = pool.write(table, 0, &[1; 8192], &mut notices)?;
//! assert_eq!((done.bytes, done.frames), (8192, 2));
//!
//! let stop = pool.create_child(table, 0, 2 * PAGE_SIZE, &mut notices)?;
//! let done = pool.write(table, 4000, &[2; 10], &mut notices)?;
//! assert_eq!((done.bytes, done.frames), (10, 1));
//!
//! let (mut now, mut then) = ([0; 3], [0; 3]);
//! pool.read(table, 3999, &mut now)?;
//! pool.read(stop, 3999, &mut then)?;
//! assert_eq!((now, then), ([1, 2, 2], [1, 1, 1]));
//! assert_eq!(pool.peek(stop, 1), pool.peek(table, 1));
//!
//! assert_eq!(pool.read(stop, 8190, &mut then), Err(Refusal::OutOfRange));
//! # Ok::<(), Refusal>(())
//! ```
//!
//! The library keeps nothing for itself: a pool is wholly in its tables and memory, which
//! [`Pool::start`] allocates and [`Pool::over`] takes from the caller. Mappings of objects are the
//! caller's; a call that changes what one shows says so by [`Notices`].

#![deny(unsafe_code)]
#![warn(missing_docs)]

mod answers;
mod done;
#[allow(unsafe_code)]
pub mod ffi;
mod names;
pub mod notices;
pub mod picture;
mod pool;
mod refusal;
pub mod report;
pub mod tables;

pub use done::{CutShort, Done};
pub use names::{Mapping, Object};
pub use notices::{Notice, Notices, Operation};
pub use pool::Pool;
pub use refusal::Refusal;
pub use tables::{Store, Tables, View};
pub use tables::{HEAD_LEN, MAPPINGS_LEN, NODES_LEN, PAGES_LEN};
pub use tables::{MAPPINGS, MAX_FRAMES, MAX_NOTICES, MAX_PAGES, NODES, PAGE_SIZE};
