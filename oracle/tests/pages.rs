//! A call over many pages against the same call made block by block, as the source's loops go.

use oracle::generate::{Generator, LETTERS};
use oracle::lines::{fields, TRACE};
use oracle::pool::{Answer, Code, Pool};
use oracle::trace::Trace;

const PAGE: u64 = 4096;

/// The blocks of a byte range, cut at page boundaries.
fn blocks(offset: u64, len: u64) -> Vec<(u64, u64)> {
    let mut all = Vec::new();
    let mut at = offset;
    while at < offset + len {
        let end = ((at / PAGE + 1) * PAGE).min(offset + len);
        all.push((at, end - at));
        at = end;
    }
    all
}

/// The answers of single calls, up to the first refusal, as one.
fn joined(answers: impl Iterator<Item = Answer>) -> Answer {
    let mut all = Answer {
        code: Code::Ok,
        value: 0,
        taken: 0,
        notices: Vec::new(),
    };
    for answer in answers {
        all.code = answer.code;
        all.value += answer.value;
        all.taken += answer.taken;
        all.notices.extend(answer.notices);
        if answer.code != Code::Ok {
            break;
        }
    }
    all
}

fn by_blocks(pool: &mut Pool, letter: u8, numbers: &[u64]) -> Option<Answer> {
    Some(match (letter, numbers) {
        (b'w', &[o, offset, byte, len]) => {
            let pieces = blocks(offset, len).into_iter();
            joined(pieces.map(|(at, len)| pool.write(o, at, byte as u8, len, 0)))
        }
        (b'c', &[o, offset, len]) => {
            let first = offset / PAGE;
            let pages = first..first + len / PAGE;
            joined(pages.map(|page| pool.commit(o, page * PAGE, PAGE)))
        }
        // The release upward comes once, after the last page, so only without a parent are the
        // two alike.
        (b'z', &[o, offset, len]) if pool.state().parent(o as usize).is_none() => {
            let pieces = blocks(offset, len).into_iter();
            joined(pieces.map(|(at, len)| pool.zero(o, at, len)))
        }
        _ => return None,
    })
}

/// Only the work is compared: the tests before it look at the whole range.
fn reaches_the_work(answer: &Answer) -> bool {
    matches!(answer.code, Code::Ok | Code::NoMemory | Code::Stopped)
}

#[test]
fn one_call_is_its_blocks_in_order() {
    let mut compared = [0; 12];
    for seed in 400..406 {
        let mut trace = Trace::default();
        let mut generator = Generator::new(seed, LETTERS, 64);
        for _ in 0..6000 {
            let line = generator.line(trace.pool());
            let before = trace.pool().snapshot();
            let Some(answer) = trace.call(&line) else {
                continue;
            };
            let (letter, numbers) = fields(&line, TRACE).expect("a good line");
            if !b"wcz".contains(&letter) || !reaches_the_work(&answer) {
                continue;
            }
            let after = trace.pool().snapshot();
            let pool = trace.pool_mut();
            pool.rebuild(&before);
            if let Some(pieces) = by_blocks(pool, letter, &numbers) {
                let line = String::from_utf8_lossy(&line);
                assert_eq!(pieces, answer, "{line}");
                assert_eq!(pool.state(), &after.state, "{line}");
                compared[answer.code as usize] += 1;
            }
            pool.rebuild(&after);
        }
    }
    for code in [Code::Ok, Code::NoMemory, Code::Stopped] {
        assert!(
            compared[code as usize] >= 20,
            "{code:?} was seldom compared"
        );
    }
}
