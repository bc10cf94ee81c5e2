//! Document 01's sound pool, tested over the tables.

use crate::state::*;

/// The first rule that the tables break, if any. `used` tells which frames are in use.
pub fn broken(state: &State, used: &[bool]) -> Option<String> {
    let checks = [nodes, frames, owners, mappings];
    checks.iter().find_map(|check| check(state, used).err())
}

type Checked = Result<(), String>;

fn rule(holds: bool, text: &str, number: usize) -> Checked {
    if holds {
        Ok(())
    } else {
        Err(format!("{text} ({number})"))
    }
}

fn live(state: &State) -> impl Iterator<Item = usize> + '_ {
    (0..NODES).filter(|n| state.nodes[*n][KIND] != FREE)
}

fn nodes(state: &State, _used: &[bool]) -> Checked {
    for n in 0..NODES {
        let free = state.nodes[n][KIND] == FREE;
        rule(
            !free || state.nodes[n] == free_node(n),
            "a free node is empty",
            n,
        )?;
    }
    for n in live(state) {
        links(state, n)?;
        record(&state.nodes[n], n)?;
        entries(state, n)?;
    }
    Ok(())
}

fn links(state: &State, n: usize) -> Checked {
    let words = &state.nodes[n];
    let (left, right) = (words[LEFT], words[RIGHT]);
    if words[KIND] == HIDDEN {
        rule(left != right, "the children are distinct", n)?;
        for child in [left, right] {
            let child = child.checked_sub(1).map(|c| &state.nodes[c as usize]);
            let names = |c: &Words| c[KIND] != FREE && c[PARENT] == n as u32 + 1;
            rule(child.is_some_and(names), "a child names its parent", n)?;
        }
    } else {
        rule(left == 0 && right == 0, "a leaf has no children", n)?;
    }
    if let Some(parent) = state.parent(n) {
        let above = &state.nodes[parent];
        let side = [above[LEFT], above[RIGHT]].contains(&(n as u32 + 1));
        rule(above[KIND] == HIDDEN && side, "a parent names its child", n)?;
    }
    let mut up = Some(n);
    for _ in 0..NODES {
        up = up.and_then(|n| state.parent(n));
    }
    rule(up.is_none(), "the parent chain ends", n)
}

fn record(words: &Words, n: usize) -> Checked {
    let pages = PAGES as u32;
    rule(words[SIZE] <= pages, "the size is at most 64 pages", n)?;
    rule(words[POLICY] <= 3, "the policy is at most 3", n)?;
    rule(
        words[START] <= words[END],
        "the window starts before its end",
        n,
    )?;
    let length = words[END] - words[START];
    rule(
        length <= words[SIZE],
        "the window is no longer than the size",
        n,
    )
}

fn entries(state: &State, n: usize) -> Checked {
    let words = &state.nodes[n];
    let hidden = words[KIND] == HIDDEN;
    let mut pins = 0;
    for page in 0..PAGES {
        let word = words[ENTRIES + page];
        let Some(entry) = Entry::of_word(word) else {
            rule(word == 0, "an entry without frame is 0", n)?;
            continue;
        };
        pins += entry.pins as u64;
        rule(page < words[SIZE] as usize, "entries lie below the size", n)?;
        rule(entry.tag <= RIGHT_SPLIT, "a tag is one of three", n)?;
        rule(hidden || entry.tag == OWNED, "leaf entries are Owned", n)?;
        rule(entry.pins <= 31, "pins are at most 31", n)?;
        rule(!hidden || entry.pins == 0, "hidden pages have no pins", n)?;
    }
    rule(
        hidden || words[PINS] as u64 >= pins,
        "the count covers the pins",
        n,
    )
}

fn frames(state: &State, used: &[bool]) -> Checked {
    let mut named = vec![false; used.len()];
    for n in live(state) {
        for frame in (0..PAGES)
            .filter_map(|page| state.entry(n, page))
            .map(|e| e.frame)
        {
            let fresh = frame < named.len() && !named[frame];
            rule(fresh, "a frame stands in one entry", frame)?;
            named[frame] = true;
        }
    }
    for frame in 0..used.len() {
        let same = named[frame] == used[frame];
        rule(
            same,
            "a frame is in use exactly if an entry names it",
            frame,
        )?;
    }
    Ok(())
}

fn owners(state: &State, _used: &[bool]) -> Checked {
    let next = state.next_owner;
    rule(
        (1..=OWNERS_END).contains(&next),
        "the next owner is in range",
        next as usize,
    )?;
    for n in live(state) {
        rule(state.nodes[n][OWNER] < next, "owners are below the next", n)?;
    }
    let starts: u64 = live(state).map(|n| state.nodes[n][START] as u64).sum();
    let most = PAGES as u64 * (next as u64 - 1);
    rule(
        starts <= most,
        "the window starts are bounded by the owners",
        starts as usize,
    )
}

fn mappings(state: &State, _used: &[bool]) -> Checked {
    for (m, mapping) in state.mappings.iter().enumerate() {
        if let Some(mapping) = mapping {
            rule(state.is_leaf(mapping.object), "a mapping names a leaf", m)?;
            let ends = mapping.first + mapping.pages <= PAGES;
            rule(
                mapping.pages >= 1 && ends,
                "a mapping lies below page 64",
                m,
            )?;
            let listed = state.lists[mapping.object].iter().filter(|x| **x == m);
            rule(listed.count() == 1, "a mapping is in its object's list", m)?;
        }
    }
    let listed: usize = state.lists.iter().map(Vec::len).sum();
    rule(
        listed == state.live_mappings(),
        "lists hold live mappings only",
        listed,
    )
}
