//! The list of mappings.

use super::{done, Pool};
use crate::{ffi, Mapping, Object, Refusal};

impl Pool<'_> {
    /// A mapping of `pages` pages of an object, from its page `first` on.
    ///
    /// Refused: [`Refusal::BadPool`], [`Refusal::NoObject`], [`Refusal::InvalidArgs`] for no page
    /// or one past page 64, [`Refusal::NoRoom`] where all 64 mappings are live.
    pub fn append_mapping(
        &mut self,
        object: Object,
        first: u64,
        pages: u64,
    ) -> Result<Mapping, Refusal> {
        done(ffi::append_mapping(
            &mut self.tables(),
            object.number(),
            first,
            pages,
        ))
        .map(Mapping::from_number)
    }

    /// Takes a mapping off its object. One that isn't live, or isn't the object's, changes nothing.
    ///
    /// Refused: [`Refusal::BadPool`], [`Refusal::NoObject`].
    pub fn remove_mapping(&mut self, object: Object, mapping: Mapping) -> Result<(), Refusal> {
        done(ffi::remove_mapping(
            &mut self.tables(),
            object.number(),
            mapping.number(),
        ))
        .map(|_| ())
    }
}
