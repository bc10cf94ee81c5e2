//! The library's calls by numbers: the code of document 01's table, and a value.
//!
//! The only module with `unsafe`. Every export has the six lent tables in one order, a pointer and
//! a length each, and then its own parameters; another export is a line of `exports!` and a
//! function.

pub use crate::answers::{Answer, Noted, Place, Ranged};

use crate::tables::{Tables, View};

/// Declares exports by their own parameters.
macro_rules! exports {
    ($($name:ident($($own:ident: $kind:ty),*) -> $answer:ty;)*) => {
        extern "C" {
            $(fn $name(
                nodes: *mut u32,
                nodes_len: usize,
                pages: *mut u32,
                pages_len: usize,
                used: *mut u8,
                used_len: usize,
                mappings: *mut u32,
                mappings_len: usize,
                head: *mut u32,
                head_len: usize,
                memory: *mut u8,
                memory_len: usize,
                $($own: $kind),*
            ) -> $answer;)*
        }
    };
}

exports! {
    goramul_start(value: &mut u64) -> u32;
    goramul_new(size: u64, value: &mut u64) -> u32;
    goramul_len(object: u64, value: &mut u64) -> u32;
    goramul_append_mapping(object: u64, first: u64, count: u64, value: &mut u64) -> u32;
    goramul_remove_mapping(object: u64, mapping: u64, value: &mut u64) -> u32;
    goramul_forecast(object: u64, offset: u64, len: u64, value: &mut u64) -> u32;
    goramul_commit_page(notices: *mut u32, notices_len: usize, object: u64, page: u64,
        write: bool, count: &mut u64, value: &mut u64) -> u32;
    goramul_create_child(notices: *mut u32, notices_len: usize, object: u64, offset: u64,
        len: u64, count: &mut u64, value: &mut u64) -> u32;
    goramul_read(object: u64, offset: u64, buf: *mut u8, buf_len: usize,
        value: &mut u64) -> u32;
    goramul_write(notices: *mut u32, notices_len: usize, object: u64, offset: u64,
        bytes: *const u8, bytes_len: usize, taken: &mut u64, count: &mut u64,
        value: &mut u64) -> u32;
    goramul_commit(notices: *mut u32, notices_len: usize, object: u64, offset: u64, len: u64,
        taken: &mut u64, count: &mut u64, value: &mut u64) -> u32;
    goramul_peek(zero: *const u8, zero_len: usize, object: u64, page: u64,
        value: &mut u64) -> u32;
    goramul_is_sound() -> bool;
}

/// Calls an export that may write the tables.
macro_rules! change {
    ($tables:ident => $name:ident($($own:expr),*)) => {{
        let tables: &mut Tables<'_> = $tables;
        // SAFETY: each pointer and length is that of a slice lent to this call alone.
        unsafe {
            $name(
                tables.nodes.as_mut_ptr(),
                tables.nodes.len(),
                tables.pages.as_mut_ptr(),
                tables.pages.len(),
                tables.used.as_mut_ptr(),
                tables.used.len(),
                tables.mappings.as_mut_ptr(),
                tables.mappings.len(),
                tables.head.as_mut_ptr(),
                tables.head.len(),
                tables.memory.as_mut_ptr(),
                tables.memory.len(),
                $($own),*
            )
        }
    }};
}

/// Calls an export whose tables are all `&[T]`.
macro_rules! look {
    ($view:ident => $name:ident($($own:expr),*)) => {{
        let view: View<'_> = $view;
        // SAFETY: each pointer and length is that of a lent slice, and the export only reads them.
        unsafe {
            $name(
                view.nodes.as_ptr().cast_mut(),
                view.nodes.len(),
                view.pages.as_ptr().cast_mut(),
                view.pages.len(),
                view.used.as_ptr().cast_mut(),
                view.used.len(),
                view.mappings.as_ptr().cast_mut(),
                view.mappings.len(),
                view.head.as_ptr().cast_mut(),
                view.head.len(),
                view.memory.as_ptr().cast_mut(),
                view.memory.len(),
                $($own),*
            )
        }
    }};
}

/// A value before the call. Not 0, so that one left unwritten would show.
const UNWRITTEN: u64 = u64::MAX;

fn answered(call: impl FnOnce(&mut u64) -> u32) -> Answer {
    let mut value = UNWRITTEN;
    let code = call(&mut value);
    Answer { code, value }
}

fn noted(call: impl FnOnce(&mut u64, &mut u64) -> u32) -> Noted {
    let mut count = UNWRITTEN;
    let answer = answered(|value| call(&mut count, value));
    Noted { answer, count }
}

fn ranged(call: impl FnOnce(&mut u64, &mut u64, &mut u64) -> u32) -> Ranged {
    let mut taken = UNWRITTEN;
    let Noted { answer, count } = noted(|count, value| call(&mut taken, count, value));
    Ranged {
        answer,
        taken,
        count,
    }
}

/// Fills the tables as a fresh pool.
pub fn start(tables: &mut Tables<'_>) -> Answer {
    answered(|value| change!(tables => goramul_start(value)))
}

/// A fresh object of `size` pages; the value is its number.
pub fn new(tables: &mut Tables<'_>, size: u64) -> Answer {
    answered(|value| change!(tables => goramul_new(size, value)))
}

/// The length of an object; the value is in bytes.
pub fn len(view: View<'_>, object: u64) -> Answer {
    answered(|value| look!(view => goramul_len(object, value)))
}

/// A mapping of `count` pages of an object from `first` on; the value is its number.
pub fn append_mapping(tables: &mut Tables<'_>, object: u64, first: u64, count: u64) -> Answer {
    answered(|value| change!(tables => goramul_append_mapping(object, first, count, value)))
}

/// Takes a mapping off its object; the value is 0.
pub fn remove_mapping(tables: &mut Tables<'_>, object: u64, mapping: u64) -> Answer {
    answered(|value| change!(tables => goramul_remove_mapping(object, mapping, value)))
}

/// Whether free frames suffice for the range's absent pages; the value is 1 or 0.
pub fn forecast(view: View<'_>, object: u64, offset: u64, len: u64) -> Answer {
    answered(|value| look!(view => goramul_forecast(object, offset, len, value)))
}

/// One page's frame, for reading or writing; the value is its number.
pub fn commit_page(
    tables: &mut Tables<'_>,
    notices: &mut [u32],
    object: u64,
    page: u64,
    write: bool,
) -> Noted {
    let (list, room) = (notices.as_mut_ptr(), notices.len());
    noted(|count, value| {
        change!(tables => goramul_commit_page(
            list, room, object, page, write, count, value))
    })
}

/// A child of an object's range, in bytes; the value is its number.
pub fn create_child(
    tables: &mut Tables<'_>,
    notices: &mut [u32],
    object: u64,
    offset: u64,
    len: u64,
) -> Noted {
    let (list, room) = (notices.as_mut_ptr(), notices.len());
    noted(|count, value| {
        change!(tables => goramul_create_child(
            list, room, object, offset, len, count, value))
    })
}

/// Fills the buffer with an object's bytes from `offset` on; the value is 0.
pub fn read(tables: &mut Tables<'_>, object: u64, offset: u64, buf: &mut [u8]) -> Answer {
    let (to, len) = (buf.as_mut_ptr(), buf.len());
    answered(|value| change!(tables => goramul_read(object, offset, to, len, value)))
}

/// Writes bytes to an object from `offset` on; the value is the bytes done, refused or not.
pub fn write(
    tables: &mut Tables<'_>,
    notices: &mut [u32],
    object: u64,
    offset: u64,
    bytes: &[u8],
) -> Ranged {
    let (list, room) = (notices.as_mut_ptr(), notices.len());
    let (from, len) = (bytes.as_ptr(), bytes.len());
    ranged(|taken, count, value| {
        change!(tables => goramul_write(
            list, room, object, offset, from, len, taken, count, value))
    })
}

/// A frame of its own for each page of an object's range, in bytes; the value is 0.
pub fn commit(
    tables: &mut Tables<'_>,
    notices: &mut [u32],
    object: u64,
    offset: u64,
    len: u64,
) -> Ranged {
    let (list, room) = (notices.as_mut_ptr(), notices.len());
    ranged(|taken, count, value| {
        change!(tables => goramul_commit(
            list, room, object, offset, len, taken, count, value))
    })
}

/// Where one page's bytes are; nowhere also if `zero` isn't a page of zeros.
pub fn peek(view: View<'_>, zero: &[u8], object: u64, page: u64) -> Place {
    let (bytes, len) = (zero.as_ptr(), zero.len());
    let Answer { code, value } =
        answered(|value| look!(view => goramul_peek(bytes, len, object, page, value)));
    match code {
        0 => Place::Nowhere,
        1 => Place::Frame(value),
        2 => Place::ZeroPage,
        _ => unreachable!("a place is 0, 1 or 2"),
    }
}

/// The test that heads every call.
pub fn is_sound(view: View<'_>) -> bool {
    look!(view => goramul_is_sound())
}
