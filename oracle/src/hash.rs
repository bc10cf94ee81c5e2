//! H of a row of numbers: from START, for each number x, H becomes (H * FACTOR + x) mod 2^32.
//!
//! H of a row followed by a block is H of the row times FACTOR to the block's length, plus the
//! block's own sum (H of it from 0), so blocks are hashed apart and kept.

pub const START: u32 = 2_166_136_261;
const FACTOR: u32 = 16_777_619;
const LONGEST: usize = 4096;

/// POWERS[i] is FACTOR to the power LONGEST - i: the weight of the number before i - 1 others.
static POWERS: [u32; LONGEST + 1] = powers();

const fn powers() -> [u32; LONGEST + 1] {
    let mut all = [1u32; LONGEST + 1];
    let mut i = LONGEST;
    while i > 0 {
        all[i - 1] = all[i].wrapping_mul(FACTOR);
        i -= 1;
    }
    all
}

fn power(exponent: usize) -> u32 {
    POWERS[LONGEST - exponent]
}

/// H with one more number.
pub fn step(h: u32, number: u32) -> u32 {
    h.wrapping_mul(FACTOR).wrapping_add(number)
}

/// H with a block of `len` more numbers, whose own sum is `block`.
pub fn join(h: u32, block: u32, len: usize) -> u32 {
    h.wrapping_mul(power(len)).wrapping_add(block)
}

/// The own sum of at most 4,096 bytes.
pub fn block_of_bytes(bytes: &[u8]) -> u32 {
    let weights = &POWERS[LONGEST + 1 - bytes.len()..];
    let terms = bytes.iter().zip(weights);
    terms.fold(0, |sum, (x, w)| sum.wrapping_add(w.wrapping_mul(*x as u32)))
}

/// The own sum of at most 4,096 numbers.
pub fn block_of_words(words: &[u32]) -> u32 {
    let weights = &POWERS[LONGEST + 1 - words.len()..];
    let terms = words.iter().zip(weights);
    terms.fold(0, |sum, (x, w)| sum.wrapping_add(w.wrapping_mul(*x)))
}

/// H of bytes.
pub fn of_bytes(bytes: &[u8]) -> u32 {
    bytes.chunks(LONGEST).fold(START, |h, chunk| {
        join(h, block_of_bytes(chunk), chunk.len())
    })
}

/// H of numbers below 2^64, each taken mod 2^32.
pub fn of_numbers(numbers: &[u64]) -> u32 {
    numbers.iter().fold(START, |h, x| step(h, *x as u32))
}
