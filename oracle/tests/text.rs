//! The hash and the reader of lines, on small examples.

use oracle::hash;
use oracle::lines::{fields, lines, COWLINES, TRACE};

/// H as TRACE.md defines it, number by number.
fn by_definition(numbers: impl Iterator<Item = u64>) -> u32 {
    let step = |h: u64, x: u64| (h * 16_777_619 + x) % (1 << 32);
    numbers.fold(2_166_136_261, step) as u32
}

#[test]
fn hash_of_few_numbers() {
    assert_eq!(hash::of_bytes(&[]), 2_166_136_261);
    assert_eq!(hash::of_bytes(&[1]), by_definition([1].into_iter()));
    assert_eq!(hash::of_numbers(&[1, 2, 3]), hash::of_bytes(&[1, 2, 3]));
    let large = [u32::MAX as u64, 4096, 0];
    assert_eq!(hash::of_numbers(&large), by_definition(large.into_iter()));
}

#[test]
fn hash_by_blocks_is_hash_by_numbers() {
    for len in [4095, 4096, 4097, 10_000] {
        let bytes: Vec<u8> = (0..len).map(|i| (i * 7 + i / 256) as u8).collect();
        let expected = by_definition(bytes.iter().map(|byte| *byte as u64));
        assert_eq!(hash::of_bytes(&bytes), expected);
    }
    let words: Vec<u32> = (0..75u32).map(|i| i.wrapping_mul(123_456_789)).collect();
    let joined = hash::join(hash::step(hash::START, 5), hash::block_of_words(&words), 75);
    let numbers = [5].into_iter().chain(words.iter().map(|word| *word as u64));
    assert_eq!(joined, by_definition(numbers));
}

#[test]
fn good_lines() {
    assert_eq!(fields(b"n 1", TRACE), Some((b'n', vec![1])));
    assert_eq!(fields(b"k 0 01 2", TRACE), Some((b'k', vec![0, 1, 2])));
    let most = b"n 18446744073709551615";
    assert_eq!(fields(most, TRACE), Some((b'n', vec![u64::MAX])));
    let zeros = b"n 00000000000000000001";
    assert_eq!(fields(zeros, TRACE), Some((b'n', vec![1])));
    assert_eq!(
        fields(b"n 4294967295", COWLINES),
        Some((b'n', vec![4_294_967_295]))
    );
    assert_eq!(fields(b"n 0000000001", COWLINES), Some((b'n', vec![1])));
}

#[test]
fn bad_lines() {
    let bad: [&[u8]; 14] = [
        b"",
        b" ",
        b"nn 1",
        b" n 1",
        b"n 1 ",
        b"n  1",
        b"n ",
        b"n 1\r",
        b"n -1",
        b"n +1",
        b"n a",
        b"n\t1",
        b"n 18446744073709551616",
        b"n 000000000000000000001",
    ];
    for line in bad {
        assert_eq!(fields(line, TRACE), None);
        assert_eq!(fields(line, COWLINES), None);
    }
    assert_eq!(fields(b"n 4294967296", COWLINES), None);
    assert_eq!(fields(b"n 00000000001", COWLINES), None);
}

#[test]
fn last_line_needs_no_end() {
    let text = |bytes| lines(bytes).collect::<Vec<_>>();
    assert_eq!(text(b"n 1\n\nl 0"), [&b"n 1"[..], b"", b"l 0"]);
    assert_eq!(text(b"n 1\n"), [&b"n 1"[..]]);
    assert!(text(b"").is_empty());
}
