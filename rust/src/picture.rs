//! A pool as text for people.

mod node;
#[cfg(test)]
mod tests;

use crate::ffi;
use crate::tables::{View, NEXT_OWNER, NODES};
use node::{counted, span, Node};
use std::fmt;

/// Columns of a line at most.
const WIDTH: usize = 100;

/// A pool as the trees that it is, in lines of at most 100 columns.
///
/// Each node has a line, and its children stand below it. The line tells the node's kind, number
/// and size; its window, which is the pages of its parent that it shows; the pages that it holds
/// itself, with their frames; an object's mappings. Pins and a policy are told unless they are 0.
/// Of two children an object stands before a hidden node, so a row of stops reads from the oldest
/// down. The last line tells the free frames and the next owner number.
///
/// A hidden node holds what both of its children read, until one of them writes it. A page *split
/// for object 0 (left)* is one of which the left side has got its own copy; the page here is the
/// right side's alone.
///
/// Of tables that aren't a sound pool one line says so, and nothing more.
///
/// ```
/// use goramul::picture::Picture;
/// use goramul::{Notices, Pool, PAGE_SIZE};
///
/// let mut pool = Pool::start(6)?;
/// let mut notices = Notices::with_room(0);
/// let table = pool.new(2)?;
/// pool.write(table, 0, &[1; 8192], &mut notices)?;
/// pool.create_child(table, 0, 2 * PAGE_SIZE, &mut notices)?;
/// pool.write(table, 0, &[2], &mut notices)?;
///
/// let text = "\
/// hidden 2, 2 pages: page 0 in frame 0, split for object 0 (left); page 1 in frame 1
/// ├ object 0 (left, origin), 2 pages, window 0 to 1: page 0 in frame 2
/// └ object 1 (right, snapshot), 2 pages, window 0 to 1: no page of its own
/// 3 of 6 frames free: 3 to 5; next owner 3";
/// assert_eq!(Picture::of(pool.view()).to_string(), text);
/// # Ok::<(), goramul::Refusal>(())
/// ```
#[derive(Clone, Copy, Debug)]
pub struct Picture<'a> {
    pool: View<'a>,
}

impl<'a> Picture<'a> {
    /// Of the pool that stands in the tables.
    pub fn of(pool: View<'a>) -> Picture<'a> {
        Picture { pool }
    }

    fn roots(&self) -> impl Iterator<Item = Node<'a>> {
        let pool = self.pool;
        let live = (0..NODES).filter_map(move |number| Node::of(pool, number));
        live.filter(|node| node.parent().is_none())
    }

    fn frames_and_owner(&self) -> String {
        let flags = self.pool.used.iter().zip(0..);
        let free: Vec<u32> = flags.filter(|(flag, _)| **flag == 0).map(|f| f.1).collect();
        let runs = free.chunk_by(|a, b| a + 1 == *b);
        let runs: Vec<String> = runs.map(|run| span(run[0], run.len())).collect();
        let colon = if runs.is_empty() { "" } else { ": " };
        let all = counted(self.pool.used.len(), "frame");
        let next = self.pool.head[NEXT_OWNER];
        let (count, runs) = (free.len(), runs.join(", "));
        format!("{count} of {all} free{colon}{runs}; next owner {next}")
    }
}

impl fmt::Display for Picture<'_> {
    fn fmt(&self, f: &mut fmt::Formatter<'_>) -> fmt::Result {
        if !ffi::is_sound(self.pool) {
            return f.write_str("not a sound pool");
        }
        for root in self.roots() {
            draw(f, root, "", "")?;
        }
        f.write_str(&wrapped(&self.frames_and_owner(), "", "    "))
    }
}

/// A node and all below it. Its line starts with `first`, the lines below with `below`.
fn draw(f: &mut fmt::Formatter<'_>, node: Node<'_>, first: &str, below: &str) -> fmt::Result {
    let children = node.children();
    let bar = if children.is_some() { '│' } else { ' ' };
    let rest = format!("{below}{bar}   ");
    writeln!(f, "{}", wrapped(&node.to_string(), first, &rest))?;
    if let Some([upper, lower]) = children {
        draw(f, upper, &format!("{below}├ "), &format!("{below}│ "))?;
        draw(f, lower, &format!("{below}└ "), &format!("{below}  "))?;
    }
    Ok(())
}

/// Text in lines: the first starts with `first`, the others with `rest`. A phrase that has no room
/// left goes to the next line, and only one that is longer than that is broken.
fn wrapped(text: &str, first: &str, rest: &str) -> String {
    let mut lines = Lines {
        text: first.to_string(),
        column: first.chars().count(),
        gap: "",
        rest,
    };
    for phrase in text.split_inclusive([',', ';', ':']) {
        let phrase = phrase.trim_start();
        lines.make_room(phrase);
        phrase.split(' ').for_each(|word| lines.put(word));
    }
    lines.text
}

struct Lines<'a> {
    text: String,
    /// Where the last line ends.
    column: usize,
    /// What parts the next word from it.
    gap: &'static str,
    rest: &'a str,
}

impl Lines<'_> {
    /// A new line, unless this one has room for so much.
    fn make_room(&mut self, part: &str) {
        if self.column + self.gap.len() + part.len() > WIDTH {
            self.text = format!("{}\n{}", self.text, self.rest);
            self.column = self.rest.chars().count();
            self.gap = "";
        }
    }

    fn put(&mut self, word: &str) {
        self.make_room(word);
        self.text = format!("{}{}{word}", self.text, self.gap);
        self.column += self.gap.len() + word.len();
        self.gap = " ";
    }
}
