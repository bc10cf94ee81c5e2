//! The pool that a trace runs on.

use crate::answer::Answer;
use crate::calls;
use crate::lines::fields;
use goramul::report::Report;
use goramul::{Notices, Pool, Refusal, MAX_NOTICES};

const BAD_LINE: &str = "3 0";
const FRAMES_AT_FIRST: usize = 6;

pub struct Driver {
    pub pool: Pool<'static>,
    /// The list that is lent, as long as the trace has it.
    notices: Notices,
}

impl Default for Driver {
    fn default() -> Self {
        Driver {
            pool: Pool::start(FRAMES_AT_FIRST).expect("a pool can have so many frames"),
            notices: Notices::enough(),
        }
    }
}

impl Driver {
    /// Answers a line, without line end.
    pub fn answer(&mut self, line: &[u8]) -> String {
        let called = fields(line).and_then(|(letter, numbers)| calls::call(self, letter, &numbers));
        called.map_or(BAD_LINE.to_string(), |answer| self.show(&answer))
    }

    fn show(&self, answer: &Answer) -> String {
        let report = Report::of(self.pool.view());
        let mut text = String::new();
        answer.write(report, &mut text).expect("text grows");
        text
    }

    /// A fresh pool; if it is refused, this one stays.
    pub fn start(&mut self, frames: u64) -> Answer {
        let fresh = Pool::start(usize::try_from(frames).unwrap_or(usize::MAX));
        Answer::plain(fresh.map(|pool| {
            *self = Driver {
                pool,
                ..Driver::default()
            };
            0
        }))
    }

    pub fn set_room(&mut self, room: u64) -> Answer {
        if room > MAX_NOTICES as u64 {
            return Answer::plain(Err(Refusal::InvalidArgs));
        }
        self.notices = Notices::with_room(room as usize);
        Answer::plain(Ok(0))
    }

    /// A call that is lent the notice list, with the notices that it sends.
    pub fn told(&mut self, call: impl FnOnce(&mut Pool<'_>, &mut Notices) -> Answer) -> Answer {
        let answer = call(&mut self.pool, &mut self.notices);
        answer.with(&self.notices)
    }
}
