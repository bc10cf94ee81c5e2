//! The sound pool again, written from document 01's paragraph and the layout of the tables, sharing no code
//! with the library's test: each sentence is one rule.

use goramul::tables::{mapping, node};
use goramul::View;

/// A rule in document 01's words, or of the layout, and what holds if it is kept.
pub type Rule = (&'static str, fn(&Pool) -> bool);

pub const LENGTHS: &str = "the lent tables and the memory have their lengths";
pub const CHILDREN: &str = "each hidden node has two distinct live children that name it as parent";
pub const CHILDLESS: &str = "a leaf has none";
pub const PARENTS: &str = "each parent is a live hidden node that names the node as a child";
pub const CHAINS: &str = "parent chains end";
pub const ONCE: &str = "a frame stands in at most one page entry";
pub const IN_USE: &str = "a frame is in use exactly if it stands in one";
pub const LEAF_TAGS: &str = "leaf entries are Owned";
pub const BELOW_SIZE: &str = "entries lie below the node's size";
pub const PINS: &str = "pins are 0 to 31";
pub const HIDDEN_PINS: &str = "pins are 0 in hidden nodes";
pub const PIN_SUM: &str = "an object's pin count is at least the sum of its entries' pins";
pub const NEXT: &str = "the next owner number is 1 to 16,777,216";
pub const OWNERS: &str = "live nodes' owners are below the next owner number";
pub const STARTS: &str =
    "the window starts of all live nodes add up to at most 64 pages for each owner number given";
pub const WINDOW: &str = "windows start not after their end";
pub const WINDOW_SIZE: &str = "windows are no longer than the size";
pub const SIZES: &str = "sizes are at most 64 pages";
pub const POLICIES: &str = "policies are at most 3";
pub const MAPPED_LEAF: &str = "a live mapping names a live leaf";
pub const MAPPED_PAGES: &str = "a live mapping has at least one page";
pub const MAPPED_END: &str = "a live mapping ends by page 64";
pub const KINDS: &str = "of the layout: a kind is 0 to 3";
pub const BLANK: &str = "of the layout: a free node's record is blank";
pub const FRAMES: &str = "of the layout: an entry's frame is one of the pool's";
pub const TAGS: &str = "of the layout: an entry's tag is 0 to 2";
pub const FLAGS: &str = "of the layout: a flag is 0 or 1";
pub const NUMBERS: &str = "of the layout: a mapping's number is below 64 and its own";
pub const FREE_PLACE: &str = "of the layout: a free place of the mappings is blank";
pub const NO_GAP: &str = "of the layout: no mapping comes after a free place";

/// All rules but that of the lengths, without which the tables can't be read.
pub const RULES: [Rule; 29] = [
    (CHILDREN, children),
    (CHILDLESS, childless),
    (PARENTS, parents),
    (CHAINS, chains),
    (ONCE, once),
    (IN_USE, in_use),
    (LEAF_TAGS, leaf_tags),
    (BELOW_SIZE, below_size),
    (PINS, |p| p.entries.iter().all(|e| e.pins <= 31)),
    (HIDDEN_PINS, hidden_pins),
    (PIN_SUM, pin_sum),
    (NEXT, |p| (1..=16_777_216).contains(&p.next)),
    (OWNERS, |p| p.live().all(|(_, n)| n.owner < p.next)),
    (STARTS, starts),
    (WINDOW, |p| p.live().all(|(_, n)| n.start <= n.end)),
    (WINDOW_SIZE, |p| {
        p.live().all(|(_, n)| n.end <= n.start + n.size)
    }),
    (SIZES, |p| p.live().all(|(_, n)| n.size <= 64)),
    (POLICIES, |p| p.live().all(|(_, n)| n.policy <= 3)),
    (MAPPED_LEAF, mapped_leaf),
    (MAPPED_PAGES, |p| p.mapped().all(|m| m.pages >= 1)),
    (MAPPED_END, |p| p.mapped().all(|m| m.first + m.pages <= 64)),
    (KINDS, |p| p.nodes.iter().all(|n| n.kind <= 3)),
    (BLANK, blank),
    (FRAMES, frames),
    (TAGS, |p| p.entries.iter().all(|e| e.tag <= 2)),
    (FLAGS, |p| p.used.iter().all(|flag| *flag <= 1)),
    (NUMBERS, numbers),
    (FREE_PLACE, free_place),
    (NO_GAP, no_gap),
];

/// The pool is sound: every rule is kept.
pub fn sound(view: View<'_>) -> bool {
    lengths(view) && {
        let pool = Pool::of(view);
        RULES.iter().all(|(_, kept)| kept(&pool))
    }
}

/// The rules that a pool breaks.
pub fn broken(view: View<'_>) -> Vec<&'static str> {
    if !lengths(view) {
        return vec![LENGTHS];
    }
    let pool = Pool::of(view);
    let broken = RULES.iter().filter(|(_, kept)| !kept(&pool));
    broken.map(|(rule, _)| *rule).collect()
}

fn lengths(view: View<'_>) -> bool {
    let frames = view.used.len();
    let tables = (view.nodes.len(), view.pages.len());
    let more = (view.mappings.len(), view.head.len());
    tables == (64 * 16, 64 * 64)
        && more == (64 * 4, 4)
        && (1..=1024).contains(&frames)
        && view.memory.len() == frames * 4096
}

/// The tables taken apart. Numbers are wide, so that no sum wraps.
pub struct Pool<'a> {
    nodes: Vec<Node>,
    /// The entries that aren't 0.
    entries: Vec<Entry>,
    /// How often each frame stands in one.
    standing: Vec<usize>,
    used: &'a [u8],
    mappings: Vec<Mapping>,
    next: u64,
}

struct Node {
    kind: u64,
    parent: u64,
    left: u64,
    right: u64,
    start: u64,
    end: u64,
    size: u64,
    owner: u64,
    policy: u64,
    pins: u64,
}

struct Entry {
    node: usize,
    page: u64,
    /// None if the word names no frame.
    frame: Option<usize>,
    tag: u32,
    pins: u64,
}

struct Mapping {
    number: u64,
    object: u64,
    first: u64,
    pages: u64,
}

impl Node {
    fn of(words: &[u32]) -> Node {
        let word = |place: usize| u64::from(words[place]);
        Node {
            kind: word(node::KIND),
            parent: word(node::PARENT),
            left: word(node::LEFT),
            right: word(node::RIGHT),
            start: word(node::START),
            end: word(node::END),
            size: word(node::SIZE),
            owner: word(node::OWNER),
            policy: word(node::POLICY),
            pins: word(node::PINS),
        }
    }

    fn is_live(&self) -> bool {
        self.kind != 0
    }

    fn is_hidden(&self) -> bool {
        self.kind == 3
    }

    fn is_leaf(&self) -> bool {
        self.kind == 1 || self.kind == 2
    }
}

impl Entry {
    fn of(place: usize, word: u32) -> Entry {
        Entry {
            node: place / 64,
            page: (place % 64) as u64,
            frame: (word as usize & 0xfff).checked_sub(1),
            tag: word >> 12 & 3,
            pins: u64::from(word >> 14),
        }
    }
}

impl Mapping {
    fn of(words: &[u32]) -> Mapping {
        let word = |place: usize| u64::from(words[place]);
        Mapping {
            number: word(mapping::NUMBER),
            object: word(mapping::OBJECT),
            first: word(mapping::FIRST),
            pages: word(mapping::PAGES),
        }
    }
}

/// A word has room for frames up to 4,094.
fn standing(entries: &[Entry]) -> Vec<usize> {
    let mut times = vec![0; 4096];
    for frame in entries.iter().filter_map(|entry| entry.frame) {
        times[frame] += 1;
    }
    times
}

impl<'a> Pool<'a> {
    fn of(view: View<'a>) -> Pool<'a> {
        let words = view.pages.iter().enumerate();
        let present = words.filter(|(_, word)| **word != 0);
        let entries: Vec<Entry> = present.map(|(i, word)| Entry::of(i, *word)).collect();
        Pool {
            nodes: view.nodes.chunks(16).map(Node::of).collect(),
            standing: standing(&entries),
            entries,
            used: view.used,
            mappings: view.mappings.chunks(4).map(Mapping::of).collect(),
            next: view.head[0].into(),
        }
    }

    fn live(&self) -> impl Iterator<Item = (u64, &Node)> {
        (0..).zip(&self.nodes).filter(|(_, node)| node.is_live())
    }

    fn hidden(&self) -> impl Iterator<Item = (u64, &Node)> {
        (0..).zip(&self.nodes).filter(|(_, node)| node.is_hidden())
    }

    /// The node that a link names: a number + 1.
    fn linked(&self, link: u64) -> Option<&Node> {
        self.nodes.get(link.checked_sub(1)? as usize)
    }

    fn mapped(&self) -> impl Iterator<Item = &Mapping> {
        self.mappings.iter().filter(|m| m.number != 0)
    }
}

fn children(p: &Pool) -> bool {
    p.hidden().all(|(number, node)| {
        let names = |child: &Node| child.is_live() && child.parent == number + 1;
        let both = [node.left, node.right];
        node.left != node.right && both.iter().all(|c| p.linked(*c).is_some_and(names))
    })
}

fn childless(p: &Pool) -> bool {
    let mut leaves = p.nodes.iter().filter(|n| n.is_leaf());
    leaves.all(|n| n.left == 0 && n.right == 0)
}

fn parents(p: &Pool) -> bool {
    let mut below = p.live().filter(|(_, node)| node.parent != 0);
    below.all(|(number, node)| {
        let names = |n: &Node| n.left == number + 1 || n.right == number + 1;
        p.linked(node.parent)
            .is_some_and(|n| n.is_hidden() && names(n))
    })
}

/// A chain of distinct nodes has at most 64.
fn chains(p: &Pool) -> bool {
    p.live().all(|(number, _)| {
        let mut link = number + 1;
        for _ in 0..64 {
            link = p.linked(link).map_or(0, |node| node.parent);
        }
        link == 0
    })
}

fn once(p: &Pool) -> bool {
    p.standing.iter().all(|times| *times <= 1)
}

fn in_use(p: &Pool) -> bool {
    let mut flags = p.used.iter().zip(&p.standing);
    flags.all(|(flag, times)| (*flag == 1) == (*times > 0))
}

fn leaf_tags(p: &Pool) -> bool {
    let mut of_leaves = p.entries.iter().filter(|e| p.nodes[e.node].is_leaf());
    of_leaves.all(|e| e.tag == 0)
}

fn below_size(p: &Pool) -> bool {
    p.entries.iter().all(|e| e.page < p.nodes[e.node].size)
}

fn hidden_pins(p: &Pool) -> bool {
    let mut of_hidden = p.entries.iter().filter(|e| p.nodes[e.node].is_hidden());
    of_hidden.all(|e| e.pins == 0)
}

fn pin_sum(p: &Pool) -> bool {
    let mut sums = [0; 64];
    for entry in &p.entries {
        sums[entry.node] += entry.pins;
    }
    p.nodes.iter().zip(sums).all(|(node, sum)| sum <= node.pins)
}

fn starts(p: &Pool) -> bool {
    let sum: u64 = p.live().map(|(_, node)| node.start).sum();
    // The next owner number has a rule of its own; here 0 counts as if none was given.
    sum <= 64 * p.next.saturating_sub(1)
}

fn mapped_leaf(p: &Pool) -> bool {
    let leaf = |object: u64| p.linked(object + 1).is_some_and(Node::is_leaf);
    p.mapped().all(|m| leaf(m.object))
}

fn blank(p: &Pool) -> bool {
    let mut free = p.nodes.iter().filter(|node| !node.is_live());
    free.all(|n| {
        let links = n.parent | n.left | n.right | n.start | n.end;
        links | n.size | n.owner | n.policy | n.pins == 0
    })
}

fn frames(p: &Pool) -> bool {
    let one_of = |frame: usize| frame < p.used.len();
    p.entries.iter().all(|e| e.frame.is_some_and(one_of))
}

fn numbers(p: &Pool) -> bool {
    let numbers: Vec<u64> = p.mapped().map(|m| m.number).collect();
    let own = |number: &u64| numbers.iter().filter(|other| *other == number).count() == 1;
    numbers.iter().all(|number| *number <= 64 && own(number))
}

fn free_place(p: &Pool) -> bool {
    let mut free = p.mappings.iter().filter(|m| m.number == 0);
    free.all(|m| m.object | m.first | m.pages == 0)
}

fn no_gap(p: &Pool) -> bool {
    let mut after = p.mappings.iter().skip_while(|m| m.number != 0);
    after.all(|m| m.number == 0)
}
