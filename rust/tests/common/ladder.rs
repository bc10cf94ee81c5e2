//! A call that meets all its refusals at once. Each is repaired in turn, so that they show
//! themselves in document 01's order.

use goramul::ffi::Answer;
use goramul::{Refusal, Store};

/// A pool, a call's arguments, and how many notices its list has room for.
pub struct Case {
    pub store: Store,
    pub object: u64,
    pub offset: u64,
    pub len: u64,
    pub room: usize,
}

impl Case {
    pub fn list(&self) -> Vec<u32> {
        vec![0; 4 * self.room]
    }
}

/// A refusal, and what takes it away.
pub type Step = (Refusal, fn(&mut Case));

/// Each step's refusal changes nothing; after the last repair the call is accepted.
pub fn climb(case: &mut Case, call: fn(&mut Case) -> Answer, steps: &[Step]) {
    for (i, (why, repair)) in steps.iter().enumerate() {
        let before = case.store.clone();
        let code = why.number();
        assert_eq!(call(case), Answer { code, value: 0 }, "step {i}: {why}");
        assert!(case.store == before, "step {i}: {why}");
        repair(case);
    }
    assert_eq!(call(case).code, 0);
}
