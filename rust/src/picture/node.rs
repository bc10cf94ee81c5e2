//! A node's line.

use crate::tables::{mapping, node, View};
use crate::tables::{MAPPING_WORDS, NODE_WORDS, ROW_WORDS};
use std::fmt;

const KINDS: [&str; 4] = ["free", "origin", "snapshot", "hidden"];
const HIDDEN: u32 = 3;

/// A side, and the place of its link. A split page's tag is the side's place here + 1.
const SIDES: [(&str, usize); 2] = [("left", node::LEFT), ("right", node::RIGHT)];

/// A live node of a sound pool.
#[derive(Clone, Copy)]
pub struct Node<'a> {
    pool: View<'a>,
    number: usize,
}

impl<'a> Node<'a> {
    /// None for a free one.
    pub fn of(pool: View<'a>, number: usize) -> Option<Node<'a>> {
        let node = Node { pool, number };
        (node.word(node::KIND) != 0).then_some(node)
    }

    pub fn parent(self) -> Option<Node<'a>> {
        self.link(node::PARENT)
    }

    /// Left and right, but an object before a hidden node.
    pub fn children(self) -> Option<[Node<'a>; 2]> {
        let (left, right) = self.link(node::LEFT).zip(self.link(node::RIGHT))?;
        let turned = left.is_hidden() && !right.is_hidden();
        Some(if turned { [right, left] } else { [left, right] })
    }

    fn link(self, place: usize) -> Option<Node<'a>> {
        let number = (self.word(place) as usize).checked_sub(1)?;
        Some(Node { number, ..self })
    }

    fn word(self, place: usize) -> u32 {
        self.pool.nodes[self.number * NODE_WORDS + place]
    }

    fn is_hidden(self) -> bool {
        self.word(node::KIND) == HIDDEN
    }

    fn name(self) -> String {
        let kind = if self.is_hidden() { "hidden" } else { "object" };
        format!("{kind} {}", self.number)
    }

    fn side(self) -> Option<&'static str> {
        let parent = self.parent()?;
        let names_it = |(_, place): &(&str, usize)| parent.word(*place) as usize == self.number + 1;
        SIDES.into_iter().find(names_it).map(|(side, _)| side)
    }

    /// Which child it is, and an object's kind, in brackets.
    fn marks(self) -> String {
        let kind = KINDS[self.word(node::KIND) as usize];
        match (self.side(), self.is_hidden()) {
            (None, true) => String::new(),
            (Some(side), true) => format!(" ({side})"),
            (None, false) => format!(" ({kind})"),
            (Some(side), false) => format!(" ({side}, {kind})"),
        }
    }

    /// What stands before the colon, but for the name.
    fn measures(self) -> Vec<String> {
        let (start, end) = (self.word(node::START), self.word(node::END));
        let window = || match end - start {
            0 => "empty window".to_string(),
            pages => format!("window {}", span(start, pages as usize)),
        };
        let (policy, pins) = (self.word(node::POLICY), self.word(node::PINS));
        let told = [
            Some(counted(self.word(node::SIZE) as usize, "page")),
            self.parent().map(|_| window()),
            (policy != 0).then(|| format!("policy {policy}")),
            (pins != 0).then(|| counted(pins as usize, "pin")),
        ];
        told.into_iter().flatten().collect()
    }

    /// Its pages, those together that follow each other in frames that do.
    fn pages(self) -> Vec<String> {
        let row = &self.pool.pages[self.number * ROW_WORDS..][..ROW_WORDS];
        let held = (0..).zip(row).filter(|(_, word)| **word != 0);
        let held: Vec<(u32, u32)> = held.map(|(page, word)| (page, *word)).collect();
        // The next frame with the same tag and pins is the next word.
        let runs = held.chunk_by(|a, b| (a.0 + 1, a.1 + 1) == *b);
        runs.map(|run| self.run(run[0], run.len())).collect()
    }

    fn run(self, (page, word): (u32, u32), count: usize) -> String {
        let (frame, tag, pins) = (word % 4096 - 1, word / 4096 % 4, word / 16384);
        let pages = spans("page", page, count);
        let mut text = format!("{pages} in {}", spans("frame", frame, count));
        if let Some((side, place)) = (tag as usize).checked_sub(1).map(|side| SIDES[side]) {
            let child = self.link(place).expect("a hidden node has two children");
            text += &format!(", split for {} ({side})", child.name());
        }
        if pins != 0 {
            let each = if count > 1 { " each" } else { "" };
            text += &format!(", {}{each}", counted(pins as usize, "pin"));
        }
        text
    }

    /// In the order of appending.
    fn mappings(self) -> impl Iterator<Item = String> + 'a {
        let places = self.pool.mappings.chunks_exact(MAPPING_WORDS);
        let live = places.filter(|m| m[mapping::NUMBER] != 0);
        let own = live.filter(move |m| m[mapping::OBJECT] as usize == self.number);
        own.map(|m| {
            let pages = spans("page", m[mapping::FIRST], m[mapping::PAGES] as usize);
            format!("mapping {} of {pages}", m[mapping::NUMBER] - 1)
        })
    }
}

impl fmt::Display for Node<'_> {
    fn fmt(&self, f: &mut fmt::Formatter<'_>) -> fmt::Result {
        let mut told = self.pages();
        if told.is_empty() {
            told.push("no page of its own".to_string());
        }
        told.extend(self.mappings());
        let (measures, told) = (self.measures().join(", "), told.join("; "));
        write!(f, "{}{}, {measures}: {told}", self.name(), self.marks())
    }
}

/// `1 page`, `2 pages`.
pub fn counted(count: usize, what: &str) -> String {
    format!("{count} {what}{}", if count == 1 { "" } else { "s" })
}

/// `3`, `3 to 5`.
pub fn span(first: u32, count: usize) -> String {
    match count {
        1 => first.to_string(),
        _ => format!("{first} to {}", first as usize + count - 1),
    }
}

/// `page 3`, `pages 3 to 5`.
fn spans(what: &str, first: u32, count: usize) -> String {
    let plural = if count == 1 { "" } else { "s" };
    format!("{what}{plural} {}", span(first, count))
}
