//! What a user sees of the crate from outside: threads, and the C header beside it.

use goramul::ffi::{Answer, Noted, Place, Ranged};
use goramul::notices::Iter;
use goramul::picture::Picture;
use goramul::report::Report;
use goramul::*;
use std::collections::BTreeMap;

fn shared<T: Send + Sync>() {}

/// Every public type can be sent to another thread, and shared.
#[test]
fn types_are_send_and_sync() {
    shared::<Pool<'_>>();
    shared::<Tables<'_>>();
    shared::<View<'_>>();
    shared::<Store>();
    shared::<(Object, Mapping)>();
    shared::<(Notice, Notices, Operation, Iter<'_>)>();
    shared::<(Refusal, Done, CutShort)>();
    shared::<(Answer, Noted, Ranged, Place)>();
    shared::<(Picture<'_>, Report)>();
}

/// The constants of include/goramul.h, without their prefix.
fn constants() -> BTreeMap<&'static str, u64> {
    let header = include_str!("../../include/goramul.h");
    let words = header.split("GORAMUL_").skip(1).filter_map(|text| {
        let end = text.find(|c: char| !c.is_ascii_uppercase() && c != '_')?;
        let (name, rest) = text.split_at(end);
        let rest = rest.strip_prefix(" = ").or(rest.strip_prefix(' '))?;
        let digits = rest.split(|c: char| !c.is_ascii_digit()).next()?;
        Some((name, digits.parse().ok()?))
    });
    words.collect()
}

#[test]
fn the_header_has_the_crate_s_numbers() {
    let mut expected = BTreeMap::from([
        ("PAGE_SIZE", PAGE_SIZE),
        ("MAX_FRAMES", MAX_FRAMES as u64),
        ("MAX_PAGES", MAX_PAGES),
        ("NODES", NODES as u64),
        ("MAPPINGS", MAPPINGS as u64),
        ("NODES_LEN", NODES_LEN as u64),
        ("PAGES_LEN", PAGES_LEN as u64),
        ("MAPPINGS_LEN", MAPPINGS_LEN as u64),
        ("HEAD_LEN", HEAD_LEN as u64),
        ("NOTICE_WORDS", tables::NOTICE_WORDS as u64),
        ("MAX_NOTICES", MAX_NOTICES as u64),
        ("ZERO_FRAME", u32::MAX.into()),
        ("UNMAP", Operation::Unmap.number().into()),
        ("REMOVE_WRITE", Operation::RemoveWrite.number().into()),
        ("NOWHERE", 0),
        ("IN_FRAME", 1),
        ("IN_ZERO_PAGE", 2),
        ("OK", 0),
    ]);
    expected.extend(Refusal::ALL.map(|why| (why.name(), why.number().into())));
    assert_eq!(constants(), expected);
}

/// The largest list that a call could need: an object of 64 pages with 64 mappings of all of them.
#[test]
fn enough_room_is_enough() -> Result<(), Refusal> {
    let mut pool = Pool::start(MAX_FRAMES)?;
    let object = pool.new(MAX_PAGES)?;
    let mut list = Notices::enough();
    let bytes = vec![1; (MAX_PAGES * PAGE_SIZE) as usize];
    pool.write(object, 0, &bytes, &mut list)?;
    for _ in 0..MAPPINGS {
        pool.append_mapping(object, 0, MAX_PAGES)?;
    }
    pool.create_child(object, 0, MAX_PAGES * PAGE_SIZE, &mut list)?;
    assert_eq!(list.len(), MAPPINGS);
    let mut short = Notices::with_room(MAX_NOTICES - 1);
    let refused = pool.write(object, 0, &bytes, &mut short);
    assert_eq!(refused.map_err(Refusal::from), Err(Refusal::NoRoom));
    pool.write(object, 0, &bytes, &mut list)?;
    assert_eq!((list.len(), list.iter().len()), (MAX_NOTICES, MAX_NOTICES));
    Ok(())
}
