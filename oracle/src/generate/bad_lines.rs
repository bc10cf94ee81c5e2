//! Lines that the reader must refuse.

use super::arguments::EDGES;
use super::{Generator, LETTERS};

impl Generator {
    /// A line that the reader must refuse.
    pub(super) fn bad_line(&mut self) -> Vec<u8> {
        let letter = self.random.pick(LETTERS.as_bytes()) as char;
        let number = self.random.pick(&EDGES);
        let text = match self.random.below(20) {
            0 => String::new(),
            1 => letter.to_string(),
            2 => format!("{letter} 0 0 0 0 0 0"),
            3 => format!("{letter} "),
            4 => format!(" {letter} {number}"),
            5 => "l 0 ".into(),
            6 => "n  1".into(),
            7 => "n 1 1".into(),
            8 => "l x".into(),
            9 => "n 1a".into(),
            10 => "n 000000000000000000001".into(),
            11 => "n 18446744073709551616".into(),
            12 => "n 1\r".into(),
            13 => "n -1".into(),
            14 => "n +1".into(),
            15 => format!("{letter}{number}"),
            16 => self
                .random
                .pick(&["N 1", "b 1", "0 1", "nn 1", "n\t1", "\t"])
                .into(),
            17 => "w 0 0 256 1".into(),
            18 => "g 0 0 2".into(),
            _ => self
                .random
                .pick(&["S 6", "W 0 0 256 1 1", "W 0 0 1 1", "n 1.0", "l 0x0"])
                .into(),
        };
        text.into_bytes()
    }
}
