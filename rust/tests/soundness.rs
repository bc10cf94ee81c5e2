//! The library's test of a pool and one written from document 01 say the same of random pools.

mod common;

use common::random::{change, small_words, sound_pool, undo, Random};
use common::rules;
use goramul::{ffi, Store, View, MAX_FRAMES};
use std::collections::BTreeMap;

/// How often each answer came, and how often each rule alone was broken.
#[derive(Default, Debug)]
struct Seen {
    sound: usize,
    broken: usize,
    alone: BTreeMap<&'static str, usize>,
}

/// A store whose memory is cut to its frames, so that no pool needs memory of its own.
fn view(s: &Store) -> View<'_> {
    View {
        memory: &s.memory[..s.used.len() * 4096],
        ..s.view()
    }
}

fn compare(s: &Store, seen: &mut Seen) {
    let broken = rules::broken(view(s));
    assert_eq!(ffi::is_sound(view(s)), broken.is_empty(), "{broken:?}");
    match broken[..] {
        [] => seen.sound += 1,
        [rule] => *seen.alone.entry(rule).or_default() += 1,
        _ => {}
    }
    seen.broken += usize::from(!broken.is_empty());
}

#[test]
fn changed_pools_are_judged_alike() {
    let (mut r, mut s) = (Random::new(1), Store::zeros(MAX_FRAMES));
    let mut seen = Seen::default();
    for _ in 0..20_000 {
        sound_pool(&mut r, &mut s);
        assert_eq!(rules::broken(view(&s)), [""; 0]);
        for changes in [0, 1, 1, 1, 1, 1, 1, 1, 2, 3] {
            let made: Vec<_> = (0..changes).map(|_| change(&mut r, &mut s)).collect();
            compare(&s, &mut seen);
            // Last first: two changes may be of one word.
            made.into_iter().rev().for_each(|c| undo(&mut s, c));
        }
    }
    println!("changed pools: {seen:#?}");
    assert!(seen.sound > 50_000 && seen.broken > 50_000);
    for (rule, _) in rules::RULES {
        // No single word makes a ring, and the tests of damage have some.
        assert!(
            rule == rules::CHAINS || seen.alone.contains_key(rule),
            "{rule}"
        );
    }
}

#[test]
fn small_words_are_judged_alike() {
    let (mut r, mut s) = (Random::new(2), Store::zeros(MAX_FRAMES));
    let mut seen = Seen::default();
    for _ in 0..150_000 {
        small_words(&mut r, &mut s);
        compare(&s, &mut seen);
    }
    println!("small words: {seen:#?}");
    assert!(seen.sound > 500 && seen.broken > 100_000);
}
