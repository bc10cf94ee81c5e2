//! A trace's report of a pool made by hand is the oracle's of the same pool.

mod common;

use common::*;
use goramul::report::{Report, H};
use goramul::tables::node::{PINS, POLICY};
use goramul::{Pool, Store};

#[test]
fn fresh_pool() {
    let pool = Pool::start(5).unwrap();
    let report = Report::of(pool.view()).to_string();
    assert_eq!(report, "5 1 2700209381 3869364677 2166136261");
}

/// What the trace `s 5, n 3, W 0 0 3 4097 5, m 0 1 1, k 0 0 2, m 1 0 2, w 1 2 9 1, m 0 0 1, u 0 0,
/// m 1 1 1, w 0 4096 8 1, p 0 4096 4096, n 1, y 3 2` leaves, and how the oracle reports it.
#[test]
fn pool_with_a_child() {
    let mut s = Store::zeros(5);
    s.next(4);
    s.leaf(0, ORIGIN, 3, 1);
    s.leaf(1, SNAPSHOT, 2, 2);
    s.leaf(3, ORIGIN, 1, 3);
    s.hide(2, [0, 1], 3, 1);
    s.window(0, 0, 3);
    s.window(1, 0, 2);
    s.set(3, POLICY, 2);
    s.set(0, PINS, 1);
    s.hold(2, 0, 0, RIGHT_SPLIT, 0);
    s.hold(2, 1, 1, LEFT_SPLIT, 0);
    s.hold(1, 0, 2, OWNED, 0);
    s.hold(0, 1, 3, OWNED, 1);
    s.map(0, [2, 1, 0, 2]);
    s.map(1, [3, 0, 0, 1]);
    s.map(2, [1, 1, 1, 1]);
    let first: Vec<u8> = (0..4096).map(|i| (3 + i * 5) as u8).collect();
    for frame in [0, 2] {
        s.memory[frame * 4096..][..4096].copy_from_slice(&first);
    }
    s.memory[4096] = 3;
    s.memory[2 * 4096 + 2] = 9;
    s.memory[3 * 4096] = 8;
    assert!(Pool::over(s.lend()).is_sound());
    assert_eq!(Report::of(s.view()).to_string(), EXPECTED);
}

const EXPECTED: &str = "1 4 1891962327 428644991 3055703252";

/// Bytes are hashed in chunks; the result is that of one number after the other.
#[test]
fn bytes_are_numbers() {
    let bytes: Vec<u8> = (0..100).map(|i| (i * 37) as u8).collect();
    for len in 0..bytes.len() {
        let row: Vec<u32> = bytes[..len].iter().map(|x| u32::from(*x)).collect();
        assert_eq!(H::EMPTY.bytes(&bytes[..len]), H::EMPTY.numbers(&row));
    }
}
