use std::error::Error;
use std::fmt;

/// Why a call is refused. A refused call changes nothing, unless its case says so.
#[derive(Clone, Copy, PartialEq, Eq, Hash, Debug)]
#[repr(u32)]
pub enum Refusal {
    /// The range doesn't lie inside the object.
    OutOfRange = 1,
    /// The object's policy, pins or mappings forbid the call.
    BadState = 2,
    /// An argument is never allowed: a size above 64 pages, part of a page, a policy above 3.
    InvalidArgs = 3,
    /// A frame is needed and none is free. Earlier pages are done, and moves on the failing page's
    /// path stay.
    NoMemory = 4,
    /// The object has a parent.
    NotSupported = 5,
    /// A page's pin count, or the object's, is at its end.
    Unavailable = 6,
    /// The lent tables or the memory have a wrong length or aren't a sound pool.
    BadPool = 7,
    /// The number isn't a live object's.
    NoObject = 8,
    /// Too few nodes are free, or the owner numbers are used up.
    NoNode = 9,
    /// The notice list is too short, or no mapping is free.
    NoRoom = 10,
    /// The source would panic here. Earlier pages are done, this one is untouched.
    Stopped = 11,
    /// The object's pin count is below the number of pages to unpin.
    PinLedger = 12,
}

impl Refusal {
    /// All refusals, by their numbers.
    pub const ALL: [Refusal; 12] = [
        Refusal::OutOfRange,
        Refusal::BadState,
        Refusal::InvalidArgs,
        Refusal::NoMemory,
        Refusal::NotSupported,
        Refusal::Unavailable,
        Refusal::BadPool,
        Refusal::NoObject,
        Refusal::NoNode,
        Refusal::NoRoom,
        Refusal::Stopped,
        Refusal::PinLedger,
    ];

    /// The number in document 01's table, 1 to 12.
    pub fn number(self) -> u32 {
        self as u32
    }

    /// The refusal of a number; none for 0 and above 12.
    ///
    /// ```
    /// use goramul::Refusal;
    ///
    /// assert_eq!(Refusal::from_number(9), Some(Refusal::NoNode));
    /// assert_eq!(Refusal::from_number(0), None);
    /// ```
    pub fn from_number(number: u32) -> Option<Refusal> {
        Refusal::ALL.into_iter().find(|r| r.number() == number)
    }

    /// The name in document 01's table.
    pub fn name(self) -> &'static str {
        match self {
            Refusal::OutOfRange => "OUT_OF_RANGE",
            Refusal::BadState => "BAD_STATE",
            Refusal::InvalidArgs => "INVALID_ARGS",
            Refusal::NoMemory => "NO_MEMORY",
            Refusal::NotSupported => "NOT_SUPPORTED",
            Refusal::Unavailable => "UNAVAILABLE",
            Refusal::BadPool => "BAD_POOL",
            Refusal::NoObject => "NO_OBJECT",
            Refusal::NoNode => "NO_NODE",
            Refusal::NoRoom => "NO_ROOM",
            Refusal::Stopped => "STOPPED",
            Refusal::PinLedger => "PIN_LEDGER",
        }
    }
}

impl fmt::Display for Refusal {
    fn fmt(&self, f: &mut fmt::Formatter<'_>) -> fmt::Result {
        f.write_str(self.name())
    }
}

impl Error for Refusal {}
