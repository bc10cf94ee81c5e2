//! One stop of a timeline: a live table of passes is written, the operator stops the strip, and the
//! live table is written again. A table has its labels on page 0 and their bars on page 1.

use goramul::picture::Picture;
use goramul::{Notices, Object, Pool, Refusal, PAGE_SIZE};

const TABLE: u64 = 2;
const LABEL: u64 = 0;
const BAR: u64 = 1;
const FRAMES: usize = 6;

/// Bytes of a label, and of a bar.
const LENGTH: usize = 16;
type Row = [&'static [u8]; 2];

const FIRST: Row = [b"pass 17    09:20", b"[############  ]"];
const SECOND: Row = [b"pass 18    10:52", b"[###           ]"];

fn main() -> Result<(), Refusal> {
    let mut pool = Pool::start(FRAMES)?;
    let live = pool.new(TABLE)?;
    write(&mut pool, live, FIRST)?;
    show("The live table is written, a label and its bar.", &pool);

    let stop = pool.create_child(live, 0, TABLE * PAGE_SIZE, &mut no_notices())?;
    show(
        "The operator stops the strip: the stop is a child, and no byte is copied.",
        &pool,
    );

    write(&mut pool, live, SECOND)?;
    show(
        "The live table is written again: it gets copies, and the old pages are the stop's alone.",
        &pool,
    );

    let (now, then) = (read(&mut pool, live)?, read(&mut pool, stop)?);
    println!("The live table reads  {now}");
    println!("The stop still reads  {then}");
    assert_eq!((now, then), (joined(SECOND), joined(FIRST)));
    Ok(())
}

/// No mapping is live, so there is nobody to tell.
fn no_notices() -> Notices {
    Notices::with_room(0)
}

fn write(pool: &mut Pool<'_>, table: Object, row: Row) -> Result<(), Refusal> {
    for (page, bytes) in [LABEL, BAR].into_iter().zip(row) {
        pool.write(table, page * PAGE_SIZE, bytes, &mut no_notices())?;
    }
    Ok(())
}

/// A table's label and bar.
fn read(pool: &mut Pool<'_>, table: Object) -> Result<String, Refusal> {
    let (mut label, mut bar) = ([0; LENGTH], [0; LENGTH]);
    pool.read(table, LABEL * PAGE_SIZE, &mut label)?;
    pool.read(table, BAR * PAGE_SIZE, &mut bar)?;
    Ok(joined([&label, &bar]))
}

fn joined(row: [&[u8]; 2]) -> String {
    row.map(String::from_utf8_lossy).join("  ")
}

fn show(words: &str, pool: &Pool<'_>) {
    println!("{words}\n\n{}\n", Picture::of(pool.view()));
}
