use crate::Refusal;
use std::error::Error;
use std::fmt;

/// What a write or a commit has done.
#[derive(Clone, Copy, PartialEq, Eq, Default, Debug)]
pub struct Done {
    /// Bytes written; a commit writes none.
    pub bytes: u64,
    /// Frames taken: so many fewer are free than before the call.
    pub frames: u64,
}

/// A write or a commit that was refused, at once or after some pages.
///
/// Only [`Refusal::NoMemory`] and [`Refusal::Stopped`] come after some pages, which stay done.
/// `?` makes it the [`Refusal`] where what was done doesn't matter.
#[derive(Clone, Copy, PartialEq, Eq, Debug)]
pub struct CutShort {
    /// Why it went no further.
    pub why: Refusal,
    /// How far it went.
    pub done: Done,
}

impl From<CutShort> for Refusal {
    fn from(short: CutShort) -> Refusal {
        short.why
    }
}

impl fmt::Display for CutShort {
    fn fmt(&self, f: &mut fmt::Formatter<'_>) -> fmt::Result {
        let CutShort { why, done } = self;
        let Done { bytes, frames } = done;
        write!(f, "{why} after {bytes} bytes and {frames} frames")
    }
}

impl Error for CutShort {}
