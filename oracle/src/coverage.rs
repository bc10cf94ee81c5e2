//! The ways in which each call of a trace is answered: those pinned in answers/calls.txt, and how
//! often each came.

use crate::trace::BAD_LINE;
use std::collections::BTreeMap;
use std::fmt;

const PINNED: &str = include_str!("../../answers/calls.txt");

/// The words for what a value tells, where the code doesn't.
const WORDS: [&str; 5] = ["zero-frame", "empty", "page", "no", "yes"];

/// What must have come.
#[derive(Clone, Copy, PartialEq, Eq, Debug)]
pub enum Demand {
    /// Every pinned way of every call.
    All,
    /// Every way of the library's calls.
    Library,
    /// Those that the library's calls alone can lead to.
    LibraryAlone,
}

struct Pinned {
    letter: char,
    in_library: bool,
    /// A way, and whether it needs a call that the library lacks.
    ways: Vec<(&'static str, bool)>,
}

fn pinned() -> impl Iterator<Item = Pinned> {
    let lines = PINNED.lines().filter(|line| !line.starts_with('#'));
    lines.map(|line| {
        let (letter, rest) = line.split_at(1);
        let mut words = rest.split_whitespace();
        Pinned {
            letter: letter.chars().next().expect("a letter"),
            in_library: words.next() == Some("both"),
            ways: words.map_while(way).collect(),
        }
    })
}

/// A word of the table as a way; none where the call's name begins.
fn way(word: &'static str) -> Option<(&'static str, bool)> {
    let bare = word.trim_matches(['[', ']']);
    let known = WORDS.contains(&bare) || bare.parse::<u32>().is_ok();
    known.then_some((bare, bare.len() < word.len()))
}

/// The letters of the calls that the library must have.
pub fn library_letters() -> String {
    let calls = pinned().filter(|call| call.in_library);
    calls.map(|call| call.letter).collect()
}

#[derive(Default)]
pub struct Counts {
    ways: BTreeMap<(char, String), usize>,
    pub calls: usize,
    pub bad_lines: usize,
    pub notices: usize,
}

impl Counts {
    /// Counts a line and its answer; none if that isn't an answer.
    pub fn count(&mut self, line: &[u8], answer: &str) -> Option<()> {
        if answer == BAD_LINE {
            self.bad_lines += 1;
            return Some(());
        }
        let letter = char::from(*line.first()?);
        let mut numbers = answer.split(' ').map(str::parse::<u64>);
        let (code, value) = (numbers.next()?.ok()?, numbers.next()?.ok()?);
        self.calls += 1;
        self.notices += numbers.nth(6)?.ok()? as usize;
        self.add(letter, &code.to_string());
        if let Some(word) = told(letter, code, value) {
            self.add(letter, word);
        }
        Some(())
    }

    fn add(&mut self, letter: char, way: &str) {
        *self.ways.entry((letter, way.to_string())).or_default() += 1;
    }

    fn of(&self, letter: char, way: &str) -> usize {
        let key = (letter, way.to_string());
        self.ways.get(&key).copied().unwrap_or(0)
    }

    /// A way and how often it came, if it did.
    fn show(&self, f: &mut fmt::Formatter<'_>, letter: char, way: &str) -> fmt::Result {
        match self.of(letter, way) {
            0 => Ok(()),
            count => write!(f, "  {way}: {count}"),
        }
    }

    /// What is demanded and never came.
    pub fn missing(&self, demand: Demand) -> Vec<String> {
        let mut all = Vec::new();
        for call in pinned().filter(|call| call.in_library || demand == Demand::All) {
            for (way, beyond) in &call.ways {
                let wanted = !beyond || demand != Demand::LibraryAlone;
                if wanted && self.of(call.letter, way) == 0 {
                    all.push(format!("{} {way}", call.letter));
                }
            }
        }
        let others = [("bad lines", self.bad_lines), ("notices", self.notices)];
        let none = others.iter().filter(|(_, count)| *count == 0);
        all.extend(none.map(|(name, _)| name.to_string()));
        all
    }
}

/// What a value tells beyond the code.
fn told(letter: char, code: u64, value: u64) -> Option<&'static str> {
    Some(match (letter, code, value) {
        ('h', 0, 0) => "empty",
        ('h', 0, _) => "page",
        ('f', 0, 0) => "no",
        ('f', 0, _) => "yes",
        ('g', 0, 4_294_967_295) => "zero-frame",
        _ => return None,
    })
}

/// A line for each call that came.
impl fmt::Display for Counts {
    fn fmt(&self, f: &mut fmt::Formatter<'_>) -> fmt::Result {
        for Pinned { letter, .. } in pinned() {
            let count = |code: u32| self.of(letter, &code.to_string());
            let (accepted, all) = (count(0), (0..=12).map(count).sum::<usize>());
            if all == 0 {
                continue;
            }
            let share = 100.0 * accepted as f64 / all as f64;
            write!(f, "{letter} {all:>9}, accepted {share:>5.1}%")?;
            for code in 1..=12 {
                self.show(f, letter, &code.to_string())?;
            }
            for word in WORDS {
                self.show(f, letter, word)?;
            }
            writeln!(f)?;
        }
        let (calls, notices) = (self.calls, self.notices);
        write!(f, "{calls} calls and {notices} notices; ")?;
        write!(f, "{} bad lines", self.bad_lines)
    }
}
