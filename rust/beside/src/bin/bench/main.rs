//! Times calls of the library and of the unchanged Rust, beside a memcpy of as many bytes: small and
//! large ones, without a parent and as the last of a row of children, with live mappings, and on a
//! full pool. All are timed in turn in one run. A ratio is that of the medians; the quartiles tell
//! how far to trust it.

#[path = "../../../../src/bin/bench/buffers.rs"]
mod buffers;
mod case;
mod port;
mod source;
#[path = "../../../../src/bin/bench/timing.rs"]
mod timing;

use buffers::Buffers;
use case::Case;
use goramul::{MAPPINGS, PAGE_SIZE};
use source::Source;
use std::hint::black_box;
use std::panic;
use std::process::ExitCode;

const ROUNDS: usize = 1000;
const DEEP: usize = 31;
const PAGE: usize = PAGE_SIZE as usize;

/// So many pages of the row's find room, at 31 frames each.
const FEW: usize = 30;

const NOTE: &str = "\
Ratios are of medians; the times are quartiles, of one call. Where shared pages are written 31 deep
they are 30: a page is copied once for each level, as in the source, and takes 31 frames. The Rust
has no peek and no forecast: beside peek stands its read of the page, beside forecast its
committed_pages_in_range. It tests no pool, and is built without overflow checks.";

/// Where the object's pages are before the call.
#[derive(Clone, Copy, PartialEq)]
pub enum Pages {
    /// Nowhere: they read as zeros.
    Absent,
    /// In frames of the first object, which the row shares.
    Shared,
    /// In frames of the object itself.
    Own,
}

#[derive(Clone, Copy)]
pub struct Shape {
    /// How many children there are in the row after the first object.
    pub children: usize,
    pub pages: Pages,
    /// Mappings of all pages of the last object.
    pub mappings: usize,
    /// Other objects of 64 pages in frames.
    pub others: usize,
}

#[derive(Clone, Copy, PartialEq)]
pub enum Call {
    Read,
    Write,
    CreateChild,
    Peek,
    Forecast,
}

fn main() -> ExitCode {
    if checks_overflow() {
        eprintln!("the Rust is to be timed without overflow checks: cargo run --profile timed");
        return ExitCode::FAILURE;
    }
    Source::start();
    let kinds = [large(), small(), busy(), others()];
    let mut cases: Vec<Case> = kinds.into_iter().flatten().collect();
    let mut buffers = Buffers::default();
    for _ in 0..ROUNDS {
        for case in &mut cases {
            case.round(&mut buffers);
        }
    }
    println!("{}", case::header());
    cases.iter().for_each(|case| println!("{case}"));
    println!("\n{NOTE}");
    ExitCode::SUCCESS
}

fn checks_overflow() -> bool {
    panic::set_hook(Box::new(|_| ()));
    let sum = panic::catch_unwind(|| black_box(u8::MAX) + black_box(1));
    let _ = panic::take_hook();
    sum.is_err()
}

const ALONE: Shape = Shape {
    children: 0,
    pages: Pages::Own,
    mappings: 0,
    others: 0,
};

const LAST: Shape = Shape {
    children: DEEP,
    ..ALONE
};

const MAPPED: Shape = Shape {
    mappings: MAPPINGS,
    ..ALONE
};

/// With the object's own 64 all 1,024 frames are in use.
const FULL: Shape = Shape {
    others: 15,
    ..ALONE
};

fn with(shape: Shape, pages: Pages) -> Shape {
    Shape { pages, ..shape }
}

/// 64 pages.
fn large() -> Vec<Case> {
    use {buffers::ALL, Call::*, Pages::*};
    vec![
        Case::new("64 pages: first write", with(ALONE, Absent), Write, ALL),
        Case::new("64 pages: second write", ALONE, Write, ALL),
        Case::new("64 pages: read", ALONE, Read, ALL),
        Case::new(
            "31 deep: first write, absent",
            with(LAST, Absent),
            Write,
            ALL,
        ),
        Case::new(
            "31 deep: first write, 30 shared",
            with(LAST, Shared),
            Write,
            FEW * PAGE,
        ),
        Case::new("31 deep: second write", LAST, Write, ALL),
        Case::new("31 deep: read, shared", with(LAST, Shared), Read, ALL).within(0.7),
        Case::new("31 deep: read, own", LAST, Read, ALL),
    ]
}

fn small() -> Vec<Case> {
    use {Call::*, Pages::*};
    vec![
        Case::new("16 bytes: read", ALONE, Read, 16),
        Case::new("16 bytes: write", ALONE, Write, 16),
        Case::new("one page: read", ALONE, Read, PAGE),
        Case::new("one page: write", ALONE, Write, PAGE),
        Case::new(
            "31 deep, 16 bytes: read, shared",
            with(LAST, Shared),
            Read,
            16,
        ),
        Case::new("31 deep, 16 bytes: write", LAST, Write, 16),
        Case::new(
            "31 deep, one page: read, shared",
            with(LAST, Shared),
            Read,
            PAGE,
        ),
        Case::new("31 deep, one page: write", LAST, Write, PAGE),
    ]
}

fn busy() -> Vec<Case> {
    use {buffers::ALL, Call::*, Pages::*};
    let child = Shape {
        children: 1,
        pages: Shared,
        ..MAPPED
    };
    vec![
        Case::new("64 mappings, 16 bytes: read", MAPPED, Read, 16),
        Case::new("64 mappings, 16 bytes: write", MAPPED, Write, 16),
        Case::new("64 mappings, one page: write", MAPPED, Write, PAGE),
        Case::new("64 mappings, page shared: write", child, Write, PAGE),
        Case::new("full pool, 16 bytes: read", FULL, Read, 16),
        Case::new("full pool, 16 bytes: write", FULL, Write, 16),
        Case::new("full pool, one page: read", FULL, Read, PAGE),
        Case::new("full pool, one page: write", FULL, Write, PAGE),
        Case::new("full pool, 64 pages: write", FULL, Write, ALL),
    ]
}

fn others() -> Vec<Case> {
    use {buffers::ALL, Call::*, Pages::*};
    let below = Shape {
        children: DEEP - 1,
        ..ALONE
    };
    vec![
        Case::new("create_child of 64 pages", ALONE, CreateChild, ALL),
        Case::new("64 mappings: create_child", MAPPED, CreateChild, ALL),
        Case::new("full pool: create_child", FULL, CreateChild, ALL),
        Case::new("30 deep: create_child", below, CreateChild, ALL),
        Case::new("peek", ALONE, Peek, PAGE),
        Case::new("31 deep: peek, shared", with(LAST, Shared), Peek, PAGE),
        Case::new("forecast of 64 pages", ALONE, Forecast, ALL),
        Case::new(
            "31 deep: forecast of 64 pages",
            with(LAST, Shared),
            Forecast,
            ALL,
        ),
    ]
}
