//! The reader of lines: a letter, then decimal numbers, one space between fields.

/// How numbers of a line are bounded.
#[derive(Clone, Copy)]
pub struct Bounds {
    pub digits: usize,
    pub largest: u64,
}

pub const COWLINES: Bounds = Bounds {
    digits: 10,
    largest: 4_294_967_295,
};

pub const TRACE: Bounds = Bounds {
    digits: 20,
    largest: u64::MAX,
};

/// The letter and the numbers of a line; none if the line is bad. How many numbers there must be,
/// and which are bytes, is for the reader of the letter.
pub fn fields(line: &[u8], bounds: Bounds) -> Option<(u8, Vec<u64>)> {
    let mut parts = line.split(|byte| *byte == b' ');
    let &[letter] = parts.next()? else {
        return None;
    };
    let numbers: Option<Vec<u64>> = parts.map(|part| number(part, bounds)).collect();
    Some((letter, numbers?))
}

fn number(part: &[u8], bounds: Bounds) -> Option<u64> {
    if part.is_empty() || part.len() > bounds.digits {
        return None;
    }
    let mut value: u64 = 0;
    for byte in part {
        let digit = byte.is_ascii_digit().then(|| byte - b'0')?;
        value = value.checked_mul(10)?.checked_add(digit.into())?;
    }
    (value <= bounds.largest).then_some(value)
}

/// A number that must be a byte.
pub fn byte(number: u64) -> Option<u8> {
    u8::try_from(number).ok()
}

/// The lines of a text; the last one needs no line end.
pub fn lines(text: &[u8]) -> impl Iterator<Item = &[u8]> {
    text.split_inclusive(|byte| *byte == b'\n')
        .map(|line| line.strip_suffix(b"\n").unwrap_or(line))
}
