//! The real nodes as numbers, and real nodes from numbers. This module stands below the source
//! text, so it sees the private fields.

use super::*;
use crate::state::{self, Entry, State, Words, ENTRIES, HIDDEN, NODES, ORIGIN, SNAPSHOT};

pub type Node = Arc<VMObjectPaged>;
pub type WeakNode = Weak<VMObjectPaged>;

/// What turns the tree's pointers and owner identifiers into the pool's numbers.
pub struct Names<'a> {
    /// The address of each live node, 0 for a free one.
    pub addresses: &'a [usize; NODES],
    pub owner_base: u64,
}

impl Names<'_> {
    /// The node number at an address, plus 1.
    fn link(&self, address: usize) -> u32 {
        let number = self.addresses.iter().position(|a| *a == address);
        number.expect("a link to a node of the pool") as u32 + 1
    }
}

pub fn address(node: &Node) -> usize {
    Arc::as_ptr(node) as usize
}

/// An owner identifier that the source would give next; it is used up.
pub fn use_up_owner() -> u64 {
    new_owner_id()
}

/// The hidden node above a leaf that has just been cloned, and its new right child.
pub fn parent_and_new_child(leaf: &Node) -> (WeakNode, Node) {
    let parent = leaf.inner.borrow().parent.clone();
    let parent = parent.expect("a cloned leaf has a parent");
    let inner = parent.inner.borrow();
    let VMOType::Hidden { right, .. } = &inner.type_ else {
        panic!("a leaf's parent is hidden");
    };
    let child = right.upgrade().expect("the new child is live");
    (Arc::downgrade(&parent), child)
}

/// Writes a node's words, and its mappings' numbers in list order.
pub fn read_out(node: &Node, names: &Names, words: &mut Words, list: &mut Vec<usize>) {
    let inner = node.inner.borrow();
    let weak_address = |weak: &WeakNode| weak.as_ptr() as usize;
    let (kind, left, right) = match &inner.type_ {
        VMOType::Origin => (ORIGIN, 0, 0),
        VMOType::Snapshot => (SNAPSHOT, 0, 0),
        VMOType::Hidden { left, right } => {
            let link = |weak| names.link(weak_address(weak));
            (HIDDEN, link(left), link(right))
        }
    };
    words[state::KIND] = kind;
    words[state::PARENT] = inner.parent.as_ref().map_or(0, |p| names.link(address(p)));
    words[state::LEFT] = left;
    words[state::RIGHT] = right;
    words[state::START] = whole_pages(inner.parent_offset);
    words[state::END] = whole_pages(inner.parent_limit);
    words[state::SIZE] = whole_pages(inner.size);
    words[ENTRIES..ENTRIES + state::PAGES].fill(0);
    for (page, entry) in &inner.frames {
        words[ENTRIES + page] = entry_word(entry);
    }
    words[state::OWNER] = inner.owner.wrapping_sub(names.owner_base) as u32;
    words[state::POLICY] = inner.cache_policy as u32;
    words[state::PINS] = inner.pin_count as u32;
    list.clear();
    list.extend(
        inner
            .mappings
            .iter()
            .flat_map(Weak::upgrade)
            .map(|m| m.number),
    );
}

fn whole_pages(bytes: usize) -> u32 {
    assert!(page_aligned(bytes));
    (bytes / PAGE_SIZE) as u32
}

fn entry_word(page: &PageState) -> u32 {
    let frame = kernel_hal::mem::number_of(page.frame.paddr());
    let tag = match page.tag {
        PageStateTag::Owned => state::OWNED,
        PageStateTag::LeftSplit => state::LEFT_SPLIT,
        PageStateTag::RightSplit => state::RIGHT_SPLIT,
    };
    Entry {
        frame: frame.expect("an entry never names the zero frame"),
        tag,
        pins: page.pin_count as u32,
    }
    .word()
}

fn entry_of(word: u32) -> Option<PageState> {
    let entry = Entry::of_word(word)?;
    let mut page = PageState::new(PhysFrame::claim(entry.frame));
    page.tag = match entry.tag {
        state::OWNED => PageStateTag::Owned,
        state::LEFT_SPLIT => PageStateTag::LeftSplit,
        _ => PageStateTag::RightSplit,
    };
    page.pin_count = entry.pins as u8;
    Some(page)
}

/// Takes nodes out of use without the source's drop seeing links or pages.
pub fn dissolve(nodes: Vec<Node>) {
    for node in &nodes {
        let mut inner = node.inner.borrow_mut();
        inner.parent = None;
        inner.type_ = VMOType::Origin;
        inner.frames.clear();
    }
}

/// Real nodes as a description has them; its frames must be free. A clone tree shares one lock.
pub fn build(from: &State, owner_base: u64, mappings: &[Weak<VmMapping>]) -> Vec<Option<Node>> {
    let locks: Vec<_> = (0..NODES).map(|_| Arc::new(Mutex::new(()))).collect();
    let live = |n: &usize| from.nodes[*n][state::KIND] != state::FREE;
    let mut nodes = vec![None; NODES];
    for n in (0..NODES).filter(live) {
        let lock = locks[root(from, n)].clone();
        let mut inner = unlinked(&from.nodes[n], owner_base);
        let list = from.lists[n].iter();
        inner.mappings = list.map(|m| mappings[*m].clone()).collect();
        nodes[n] = Some(VMObjectPaged::wrap(inner, Some(lock)));
    }
    for n in (0..NODES).filter(live) {
        link(&nodes, n, &from.nodes[n]);
    }
    nodes
}

fn root(from: &State, node: usize) -> usize {
    from.parent(node).map_or(node, |parent| root(from, parent))
}

fn unlinked(words: &Words, owner_base: u64) -> VMObjectPagedInner {
    let entries = words[ENTRIES..ENTRIES + state::PAGES].iter().enumerate();
    let frames = entries.filter_map(|(page, word)| Some((page, entry_of(*word)?)));
    VMObjectPagedInner {
        owner: owner_base.wrapping_add(words[state::OWNER] as u64),
        type_: match words[state::KIND] {
            SNAPSHOT => VMOType::Snapshot,
            _ => VMOType::Origin,
        },
        parent: None,
        parent_offset: words[state::START] as usize * PAGE_SIZE,
        parent_limit: words[state::END] as usize * PAGE_SIZE,
        size: words[state::SIZE] as usize * PAGE_SIZE,
        frames: frames.collect(),
        mappings: Vec::new(),
        cache_policy: CachePolicy::of_number(words[state::POLICY] as u64).expect("a policy"),
        contiguous: false,
        self_ref: Default::default(),
        pin_count: words[state::PINS] as usize,
    }
}

fn link(nodes: &[Option<Node>], number: usize, words: &Words) {
    let other = |word: u32| {
        (word as usize)
            .checked_sub(1)
            .and_then(|n| nodes[n].clone())
    };
    let node = nodes[number].as_ref().expect("a live node");
    let mut inner = node.inner.borrow_mut();
    inner.parent = other(words[state::PARENT]);
    if words[state::KIND] == HIDDEN {
        let weak = |word| other(word).map_or(Weak::new(), |node| Arc::downgrade(&node));
        inner.type_ = VMOType::Hidden {
            left: weak(words[state::LEFT]),
            right: weak(words[state::RIGHT]),
        };
    }
}
