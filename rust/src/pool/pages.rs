//! Pages and frames: children, commits, the forecast.

use super::{done, ranged, Pool};
use crate::{ffi, CutShort, Done, Notices, Object, Refusal};

/// What the library calls the frame of a page that has none.
const ZERO_FRAME: u64 = 4_294_967_295;

impl Pool<'_> {
    /// A copy-on-write child of `len` bytes of an object, from `offset` on: it reads what the
    /// object's bytes are now, and from here on each of the two has its own. No byte is copied
    /// until one of them is written. The object's mappings of the range have to be told, in
    /// `notices`, that they may write no more.
    ///
    /// Refused, with nothing changed: [`Refusal::BadPool`], [`Refusal::NoObject`],
    /// [`Refusal::InvalidArgs`] for a part of a page or more than 64 pages, [`Refusal::BadState`]
    /// for an object that isn't Cached or has pins, [`Refusal::OutOfRange`], [`Refusal::NoNode`] if
    /// fewer than two nodes are free or the owner numbers are used up, [`Refusal::NoRoom`] if the
    /// list takes fewer notices than there are live mappings.
    pub fn create_child(
        &mut self,
        object: Object,
        offset: u64,
        len: u64,
        notices: &mut Notices,
    ) -> Result<Object, Refusal> {
        let (tables, list) = (&mut self.tables(), notices.words());
        let noted = ffi::create_child(tables, list, object.number(), offset, len);
        notices.filled(noted.count);
        done(noted.answer).map(Object::from_number)
    }

    /// Whether there are as many free frames as the range has pages that the object itself doesn't
    /// hold.
    ///
    /// Refused: [`Refusal::BadPool`], [`Refusal::NoObject`], [`Refusal::OutOfRange`].
    pub fn forecast(&self, object: Object, offset: u64, len: u64) -> Result<bool, Refusal> {
        done(ffi::forecast(self.view(), object.number(), offset, len)).map(|yes| yes == 1)
    }

    /// The frame of an object's page, for reading or writing; none where the page reads as zeros
    /// and has no frame. What mappings have to be told stands in `notices` afterwards.
    ///
    /// Refused: [`Refusal::BadPool`], [`Refusal::NoObject`], [`Refusal::OutOfRange`]; for writing
    /// [`Refusal::NoRoom`] if the list takes fewer notices than there are live mappings,
    /// [`Refusal::NoMemory`] and [`Refusal::Stopped`].
    pub fn commit_page(
        &mut self,
        object: Object,
        page: u64,
        write: bool,
        notices: &mut Notices,
    ) -> Result<Option<u64>, Refusal> {
        let (tables, list) = (&mut self.tables(), notices.words());
        let noted = ffi::commit_page(tables, list, object.number(), page, write);
        notices.filled(noted.count);
        done(noted.answer).map(|frame| (frame != ZERO_FRAME).then_some(frame))
    }

    /// A frame of its own for each page of an object's range, so that a write there takes no frame.
    /// `offset` and `len` are in bytes and each rounded down to pages, as in the source. What
    /// mappings have to be told stands in `notices` afterwards, refused or not.
    ///
    /// Refused, with nothing changed: [`Refusal::BadPool`], [`Refusal::NoObject`],
    /// [`Refusal::OutOfRange`], [`Refusal::NoRoom`] if the list takes fewer notices than `len` has
    /// pages times live mappings. Refused at a page, with the earlier ones done:
    /// [`Refusal::NoMemory`], which leaves copies and moves made on the page's path, and
    /// [`Refusal::Stopped`], which leaves the page as it was.
    pub fn commit(
        &mut self,
        object: Object,
        offset: u64,
        len: u64,
        notices: &mut Notices,
    ) -> Result<Done, CutShort> {
        let (tables, list) = (&mut self.tables(), notices.words());
        let ended = ffi::commit(tables, list, object.number(), offset, len);
        notices.filled(ended.count);
        ranged(ended)
    }
}
