//! The reader of lines: a letter, then decimal numbers, one space between fields.

/// The most digits of a number.
const DIGITS: usize = 20;

/// The letter and the numbers of a line; none if a field is bad.
pub fn fields(line: &[u8]) -> Option<(u8, Vec<u64>)> {
    let mut parts = line.split(|byte| *byte == b' ');
    let letter = parts.next()?;
    let numbers: Option<Vec<u64>> = parts.map(number).collect();
    match letter {
        [letter] => Some((*letter, numbers?)),
        _ => None,
    }
}

fn number(digits: &[u8]) -> Option<u64> {
    if digits.is_empty() || digits.len() > DIGITS {
        return None;
    }
    digits.iter().try_fold(0u64, |value, byte| {
        let digit = char::from(*byte).to_digit(10)?;
        value.checked_mul(10)?.checked_add(digit.into())
    })
}
