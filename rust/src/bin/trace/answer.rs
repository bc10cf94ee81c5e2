//! What a call of a trace answers, before the pool's report.

use goramul::{CutShort, Done, Notice, Notices, Refusal};
use std::fmt;

pub struct Answer {
    code: u32,
    value: u64,
    /// Frames taken, by the calls that tell it.
    taken: u64,
    notices: Vec<Notice>,
}

impl Answer {
    /// Of a call that tells no frames taken and no notices.
    pub fn plain(done: Result<u64, Refusal>) -> Answer {
        let (code, value) = match done {
            Ok(value) => (0, value),
            Err(why) => (why.number(), 0),
        };
        Answer {
            code,
            value,
            taken: 0,
            notices: Vec::new(),
        }
    }

    /// Of a call that goes page by page.
    pub fn ranged(ended: Result<Done, CutShort>) -> Answer {
        let (code, done) = match ended {
            Ok(done) => (0, done),
            Err(short) => (short.why.number(), short.done),
        };
        Answer {
            code,
            value: done.bytes,
            taken: done.frames,
            notices: Vec::new(),
        }
    }

    /// With the notices of a list.
    pub fn with(self, list: &Notices) -> Answer {
        let notices = list.iter().collect();
        Answer { notices, ..self }
    }

    /// CODE VALUE TAKEN, the report, COUNT and the notices.
    pub fn write(&self, report: impl fmt::Display, to: &mut impl fmt::Write) -> fmt::Result {
        let Answer {
            code,
            value,
            taken,
            notices,
        } = self;
        write!(to, "{code} {value} {taken} {report} {}", notices.len())?;
        for notice in notices {
            let Notice { first, pages, .. } = notice;
            let (mapping, op) = (notice.mapping.number(), notice.operation.number());
            write!(to, " {mapping} {first} {pages} {op}")?;
        }
        Ok(())
    }
}
