/// An object of a pool, by its number.
#[derive(Clone, Copy, PartialEq, Eq, PartialOrd, Ord, Hash, Debug)]
pub struct Object(u64);

impl Object {
    /// The object of a number, which need not be a live one: the calls test it.
    pub fn from_number(number: u64) -> Object {
        Object(number)
    }

    /// The object's number.
    pub fn number(self) -> u64 {
        self.0
    }
}

/// A mapping of an object's pages, by its number.
#[derive(Clone, Copy, PartialEq, Eq, PartialOrd, Ord, Hash, Debug)]
pub struct Mapping(u64);

impl Mapping {
    /// The mapping of a number, which need not be a live one.
    pub fn from_number(number: u64) -> Mapping {
        Mapping(number)
    }

    /// The mapping's number.
    pub fn number(self) -> u64 {
        self.0
    }
}
