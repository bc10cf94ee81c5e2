//! The lent tables: their lengths, and what stands where.

/// Bytes of a page, and of a frame.
pub const PAGE_SIZE: u64 = 4096;
/// The most frames of a pool.
pub const MAX_FRAMES: usize = 1024;
/// The most pages of an object.
pub const MAX_PAGES: u64 = 64;
/// Nodes of a pool: objects and hidden nodes together.
pub const NODES: usize = 64;
/// The most live mappings of a pool.
pub const MAPPINGS: usize = 64;

/// The most notices that a call can send: one for each page of an object and each live mapping.
pub const MAX_NOTICES: usize = MAX_PAGES as usize * MAPPINGS;

/// Words of a node's record.
pub const NODE_WORDS: usize = 16;
/// Page entries of a node.
pub const ROW_WORDS: usize = 64;
/// Words of a mapping.
pub const MAPPING_WORDS: usize = 4;
/// Words of a notice: mapping, first page in it, pages, operation.
pub const NOTICE_WORDS: usize = 4;

/// Length of the table of node records.
pub const NODES_LEN: usize = NODES * NODE_WORDS;
/// Length of the table of page entries.
pub const PAGES_LEN: usize = NODES * ROW_WORDS;
/// Length of the table of mappings.
pub const MAPPINGS_LEN: usize = MAPPINGS * MAPPING_WORDS;
/// Length of the head.
pub const HEAD_LEN: usize = 4;

/// The place of each word in a node's record; the other six are spare.
pub mod node {
    /// 0 free, 1 origin, 2 snapshot, 3 hidden.
    pub const KIND: usize = 0;
    /// 0, or the parent's number + 1.
    pub const PARENT: usize = 1;
    /// 0, or the left child's number + 1.
    pub const LEFT: usize = 2;
    /// 0, or the right child's number + 1.
    pub const RIGHT: usize = 3;
    /// The parent's page at which the node's window starts.
    pub const START: usize = 4;
    /// The parent's page at which the window ends.
    pub const END: usize = 5;
    /// The size in pages.
    pub const SIZE: usize = 6;
    /// The owner number.
    pub const OWNER: usize = 7;
    /// The cache policy.
    pub const POLICY: usize = 8;
    /// The object's pin count.
    pub const PINS: usize = 9;
}

/// The place of each word of a mapping; mappings stand in the order of appending.
pub mod mapping {
    /// 0 for none, else the mapping's number + 1.
    pub const NUMBER: usize = 0;
    /// The object's number.
    pub const OBJECT: usize = 1;
    /// The object's page that the mapping shows first.
    pub const FIRST: usize = 2;
    /// How many pages it shows.
    pub const PAGES: usize = 3;
}

/// The place in the head of the next owner number; the other words are spare.
pub const NEXT_OWNER: usize = 0;

/// A pool's tables and memory, lent for changing.
///
/// A pool of F frames, 1 to [`MAX_FRAMES`], has a `used` of F bytes and a `memory` of F pages.
#[derive(Debug)]
pub struct Tables<'a> {
    /// 64 records of 16 words, placed as in [`node`].
    pub nodes: &'a mut [u32],
    /// 64 rows of 64 page entries: 0, or frame + 1 + 4,096 × tag + 16,384 × pins.
    pub pages: &'a mut [u32],
    /// A byte for each frame: 1 in use, 0 free.
    pub used: &'a mut [u8],
    /// 64 mappings of 4 words, placed as in [`mapping`].
    pub mappings: &'a mut [u32],
    /// Four words, of which [`NEXT_OWNER`] is in use.
    pub head: &'a mut [u32],
    /// The frames' bytes.
    pub memory: &'a mut [u8],
}

/// A pool's tables and memory, lent for reading.
#[derive(Clone, Copy, PartialEq, Eq, Debug)]
pub struct View<'a> {
    /// As in [`Tables`].
    pub nodes: &'a [u32],
    /// As in [`Tables`].
    pub pages: &'a [u32],
    /// As in [`Tables`].
    pub used: &'a [u8],
    /// As in [`Tables`].
    pub mappings: &'a [u32],
    /// As in [`Tables`].
    pub head: &'a [u32],
    /// As in [`Tables`].
    pub memory: &'a [u8],
}

impl Tables<'_> {
    /// The same tables, lent on.
    pub fn lend(&mut self) -> Tables<'_> {
        Tables {
            nodes: self.nodes,
            pages: self.pages,
            used: self.used,
            mappings: self.mappings,
            head: self.head,
            memory: self.memory,
        }
    }

    /// The same tables, for reading.
    pub fn view(&self) -> View<'_> {
        View {
            nodes: self.nodes,
            pages: self.pages,
            used: self.used,
            mappings: self.mappings,
            head: self.head,
            memory: self.memory,
        }
    }
}

/// Tables and memory of one's own, to lend.
#[derive(Clone, PartialEq, Eq, Debug)]
pub struct Store {
    /// As in [`Tables`].
    pub nodes: Vec<u32>,
    /// As in [`Tables`].
    pub pages: Vec<u32>,
    /// As in [`Tables`].
    pub used: Vec<u8>,
    /// As in [`Tables`].
    pub mappings: Vec<u32>,
    /// As in [`Tables`].
    pub head: Vec<u32>,
    /// As in [`Tables`].
    pub memory: Vec<u8>,
}

impl Store {
    /// Zeros for a pool of so many frames; not yet a pool.
    pub fn zeros(frames: usize) -> Store {
        Store {
            nodes: vec![0; NODES_LEN],
            pages: vec![0; PAGES_LEN],
            used: vec![0; frames],
            mappings: vec![0; MAPPINGS_LEN],
            head: vec![0; HEAD_LEN],
            memory: vec![0; frames * PAGE_SIZE as usize],
        }
    }

    /// Lends all for changing.
    pub fn lend(&mut self) -> Tables<'_> {
        Tables {
            nodes: &mut self.nodes,
            pages: &mut self.pages,
            used: &mut self.used,
            mappings: &mut self.mappings,
            head: &mut self.head,
            memory: &mut self.memory,
        }
    }

    /// Lends all for reading.
    pub fn view(&self) -> View<'_> {
        View {
            nodes: &self.nodes,
            pages: &self.pages,
            used: &self.used,
            mappings: &self.mappings,
            head: &self.head,
            memory: &self.memory,
        }
    }
}
