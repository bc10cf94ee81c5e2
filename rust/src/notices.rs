//! What mappings have to be told after a call.

use crate::tables::{MAX_NOTICES, NOTICE_WORDS};
use crate::Mapping;
use std::slice::ChunksExact;

/// What has to be done with pages of a mapping.
#[derive(Clone, Copy, PartialEq, Eq, Hash, Debug)]
#[repr(u32)]
pub enum Operation {
    /// Other bytes stand there now.
    Unmap = 1,
    /// They may be written no more without another call.
    RemoveWrite = 2,
}

impl Operation {
    /// The number in a list of notices, 1 or 2.
    pub fn number(self) -> u32 {
        self as u32
    }

    fn from_number(number: u32) -> Operation {
        match number {
            1 => Operation::Unmap,
            2 => Operation::RemoveWrite,
            _ => unreachable!("an operation is 1 or 2"),
        }
    }
}

/// What a mapping has to be told: that pages of it changed.
#[derive(Clone, Copy, PartialEq, Eq, Hash, Debug)]
pub struct Notice {
    /// The mapping.
    pub mapping: Mapping,
    /// The first page in the mapping.
    pub first: u32,
    /// How many pages.
    pub pages: u32,
    /// What has to be done with them.
    pub operation: Operation,
}

/// A list that a call fills with notices.
///
/// ```
/// use goramul::{Notices, Operation, Pool, PAGE_SIZE};
///
/// let mut pool = Pool::start(1)?;
/// let object = pool.new(2)?;
/// let mapping = pool.append_mapping(object, 1, 1)?;
/// let mut notices = Notices::enough();
/// pool.create_child(object, 0, 2 * PAGE_SIZE, &mut notices)?;
/// assert_eq!(notices.len(), 1);
/// for notice in &notices {
///     assert_eq!((notice.mapping, notice.first, notice.pages), (mapping, 0, 1));
///     assert_eq!(notice.operation, Operation::RemoveWrite);
/// }
/// # Ok::<(), goramul::Refusal>(())
/// ```
#[derive(Debug)]
pub struct Notices {
    words: Vec<u32>,
    count: usize,
}

impl Notices {
    /// A list for so many notices. A call that may send more is refused before it changes anything.
    pub fn with_room(notices: usize) -> Notices {
        Notices {
            words: vec![0; NOTICE_WORDS * notices],
            count: 0,
        }
    }

    /// A list for [`MAX_NOTICES`], more than any call can send.
    pub fn enough() -> Notices {
        Notices::with_room(MAX_NOTICES)
    }

    /// How many notices the last call sent.
    pub fn len(&self) -> usize {
        self.count
    }

    /// The last call sent none.
    pub fn is_empty(&self) -> bool {
        self.count == 0
    }

    /// The notices of the last call.
    pub fn iter(&self) -> Iter<'_> {
        let filled = &self.words[..NOTICE_WORDS * self.count];
        Iter(filled.chunks_exact(NOTICE_WORDS))
    }

    /// The list as words, four a notice, for a call to fill.
    pub(crate) fn words(&mut self) -> &mut [u32] {
        &mut self.words
    }

    /// The call has filled in so many.
    pub(crate) fn filled(&mut self, count: u64) {
        self.count = count as usize;
    }
}

/// The notices of a list, in the order in which they were sent.
#[derive(Clone, Debug)]
pub struct Iter<'a>(ChunksExact<'a, u32>);

impl Iterator for Iter<'_> {
    type Item = Notice;

    fn next(&mut self) -> Option<Notice> {
        self.0.next().map(|word| Notice {
            mapping: Mapping::from_number(word[0].into()),
            first: word[1],
            pages: word[2],
            operation: Operation::from_number(word[3]),
        })
    }

    fn size_hint(&self) -> (usize, Option<usize>) {
        self.0.size_hint()
    }
}

impl ExactSizeIterator for Iter<'_> {}

impl<'a> IntoIterator for &'a Notices {
    type Item = Notice;
    type IntoIter = Iter<'a>;

    fn into_iter(self) -> Iter<'a> {
        self.iter()
    }
}
