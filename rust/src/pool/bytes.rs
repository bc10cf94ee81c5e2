//! An object's bytes: read, write, peek.

use super::{done, ranged, Pool};
use crate::ffi::{self, Place};
use crate::{CutShort, Done, Notices, Object, Refusal, PAGE_SIZE};

static ZERO_PAGE: [u8; PAGE_SIZE as usize] = [0; PAGE_SIZE as usize];

impl Pool<'_> {
    /// Fills `buf` with an object's bytes from `offset` on. No frame is taken, but a page that only
    /// this object can still reach may move to it, so the pool is lent for changing; [`Pool::peek`]
    /// moves nothing.
    ///
    /// Refused, with nothing changed and no byte of `buf` filled: [`Refusal::BadPool`],
    /// [`Refusal::NoObject`], [`Refusal::BadState`] if the object isn't Cached,
    /// [`Refusal::OutOfRange`].
    pub fn read(&mut self, object: Object, offset: u64, buf: &mut [u8]) -> Result<(), Refusal> {
        done(ffi::read(&mut self.tables(), object.number(), offset, buf)).map(|_| ())
    }

    /// Writes bytes to an object from `offset` on, page by page. A page that the object doesn't
    /// hold itself takes a frame: zeros, or a copy of what it reads. What mappings have to be told
    /// stands in `notices` afterwards, refused or not.
    ///
    /// Refused, with nothing changed: [`Refusal::BadPool`], [`Refusal::NoObject`],
    /// [`Refusal::BadState`] if the object isn't Cached, [`Refusal::OutOfRange`],
    /// [`Refusal::NoRoom`] if the list takes fewer notices than pages touched times live mappings.
    /// Refused at a page, with the earlier ones done: [`Refusal::NoMemory`], which leaves copies
    /// and moves made on the page's path, and [`Refusal::Stopped`], which leaves the page as it
    /// was.
    ///
    /// ```
    /// use goramul::{Notices, Pool, Refusal, PAGE_SIZE};
    ///
    /// let mut pool = Pool::start(2)?;
    /// let object = pool.new(3)?;
    /// let mut notices = Notices::with_room(0);
    /// let done = pool.write(object, PAGE_SIZE - 1, &[1, 2], &mut notices)?;
    /// assert_eq!((done.bytes, done.frames), (2, 2));
    ///
    /// let three_pages = vec![7; 3 * PAGE_SIZE as usize];
    /// let short = pool.write(object, 0, &three_pages, &mut notices).unwrap_err();
    /// assert_eq!(short.why, Refusal::NoMemory);
    /// assert_eq!(short.done.bytes, 2 * PAGE_SIZE);
    /// # Ok::<(), Refusal>(())
    /// ```
    pub fn write(
        &mut self,
        object: Object,
        offset: u64,
        bytes: &[u8],
        notices: &mut Notices,
    ) -> Result<Done, CutShort> {
        let (tables, list) = (&mut self.tables(), notices.words());
        let ended = ffi::write(tables, list, object.number(), offset, bytes);
        notices.filled(ended.count);
        ranged(ended)
    }

    /// One page's bytes as a read would give them, without a copy and with nothing moved; none
    /// where a read of the page would be refused.
    ///
    /// ```
    /// use goramul::{Notices, Pool};
    ///
    /// let mut pool = Pool::start(1)?;
    /// let object = pool.new(2)?;
    /// pool.write(object, 3, b"abc", &mut Notices::with_room(0))?;
    /// assert_eq!(&pool.peek(object, 0).unwrap()[..8], b"\0\0\0abc\0\0");
    /// assert_eq!(pool.peek(object, 1), Some(&[0; 4096][..]));
    /// assert_eq!(pool.peek(object, 2), None);
    /// # Ok::<(), goramul::Refusal>(())
    /// ```
    pub fn peek(&self, object: Object, page: u64) -> Option<&[u8]> {
        let view = self.view();
        match ffi::peek(view, &ZERO_PAGE, object.number(), page) {
            Place::Nowhere => None,
            Place::ZeroPage => Some(&ZERO_PAGE),
            Place::Frame(frame) => {
                let mut frames = view.memory.chunks_exact(PAGE_SIZE as usize);
                frames.nth(frame as usize)
            }
        }
    }
}
