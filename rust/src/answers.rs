//! What the calls say by numbers.

/// What a call says: 0 and its value, or the number of a refusal and 0.
#[derive(Clone, Copy, PartialEq, Eq, Debug)]
pub struct Answer {
    /// 0, or the number of a refusal.
    pub code: u32,
    /// 0 if the call is refused, but for write, which tells the bytes done.
    pub value: u64,
}

/// What a call with a notice list says.
#[derive(Clone, Copy, PartialEq, Eq, Debug)]
pub struct Noted {
    /// Code and value.
    pub answer: Answer,
    /// How many notices are in the list, four words each.
    pub count: u64,
}

/// What a call that also tells the frames taken says.
#[derive(Clone, Copy, PartialEq, Eq, Debug)]
pub struct Ranged {
    /// Code and value.
    pub answer: Answer,
    /// How many frames fewer are free.
    pub taken: u64,
    /// How many notices are in the list.
    pub count: u64,
}

/// Where the bytes of a page are.
#[derive(Clone, Copy, PartialEq, Eq, Debug)]
pub enum Place {
    /// A read would be refused.
    Nowhere,
    /// In the frame of this number.
    Frame(u64),
    /// In the lent zero page.
    ZeroPage,
}
