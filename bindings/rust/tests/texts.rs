//! What is written both here and in the header is the same: numbers, texts, the version.

#[allow(dead_code)]
#[path = "../src/places.rs"]
mod places;

use std::collections::BTreeMap;
use tussockbell::{Description, Kind, Order, Refused, Which};

const HEADER: &str = include_str!("../../../include/tussockbell.h");

const VERSION: &str = "#define TUSSOCKBELL_VERSION";

/// The header's numbers by name, without what all names start with.
fn defined() -> BTreeMap<&'static str, u64> {
    let number = |line: &'static str| {
        let (name, number) = line.strip_prefix("#define TUSSOCKBELL_")?.split_once(' ')?;
        Some((name, number.parse().expect("a number")))
    };
    HEADER.lines().filter(|line| !line.starts_with(VERSION)).filter_map(number).collect()
}

/// The numbers of a part of the header, by name.
fn part(holds: impl Fn(&str) -> bool) -> BTreeMap<&'static str, u64> {
    defined().into_iter().filter(|(name, _)| holds(name)).collect()
}

fn is_kind(name: &str) -> bool {
    name.starts_with("INT") || name.starts_with("UINT") || name.starts_with("FLOAT")
}

fn is_refusal(name: &str) -> bool {
    name.starts_with("REFUSED_") || name == "NOT_REFUSED"
}

fn is_limit(name: &str) -> bool {
    name.starts_with("LEAST_") || name.starts_with("MOST_")
}

#[test]
fn kinds_are_the_headers() {
    let kinds = [
        ("INT32", Kind::Int32 as u64),
        ("INT64", Kind::Int64 as u64),
        ("FLOAT32", Kind::Float32 as u64),
        ("FLOAT64", Kind::Float64 as u64),
        ("UINT64", Kind::Uint64 as u64),
    ];
    assert_eq!(part(is_kind), BTreeMap::from(kinds));
    for number in 0..=u8::MAX {
        let known = kinds.iter().any(|(_, kind)| *kind == number.into());
        assert_eq!(Kind::try_from(number).ok().map(|kind| kind as u8), known.then_some(number));
    }
}

#[test]
fn places_are_the_headers() {
    let mut places: BTreeMap<_, _> = places::ALL.iter().map(|(name, place)| (*name, *place as u64)).collect();
    // a domain's kinds are the description's, a list's length is the description's number of fields, and a batch answers as
    // many windows as it has records
    places.extend([("DOMAIN_KIND", 0), ("FOOTER_LIST_PLACES", Description::MOST_FIELDS), ("BATCH_WINDOWS", 2)]);
    // one tile of a pair is asked for with no check of the bodies
    places.extend([("RANGE_MIN", 0), ("RANGE_MAX", 1), ("RANGE_PLACES", 2)]);
    places.insert("REPORT_MOST", tussockbell::REPORT_MOST as u64);
    places.insert("REPLAY_LINE", tussockbell::REPLAY_LINE as u64);
    places.extend([("ROW_MAJOR", Order::RowMajor as u64), ("COLUMN_MAJOR", Order::ColumnMajor as u64)]);
    assert_eq!(part(|name| !is_kind(name) && !is_refusal(name) && !is_limit(name)), places);
}

#[test]
fn limits_are_the_headers() {
    macro_rules! named {
        ($($name:ident)*) => { [$((stringify!($name), Description::$name)),*] };
    }
    let limits = named!(
        LEAST_DIMENSIONS MOST_DIMENSIONS LEAST_FIELDS MOST_FIELDS LEAST_CAPACITY MOST_CAPACITY LEAST_VERSION MOST_VERSION
        LEAST_NAME MOST_NAME LEAST_TILES MOST_TILES LEAST_FANOUT MOST_FANOUT
    );
    assert_eq!(part(is_limit), BTreeMap::from(limits));
}

#[test]
fn refusal_numbers_are_the_headers() {
    macro_rules! named {
        ($($name:ident)*) => { [$((concat!("REFUSED_", stringify!($name)), Refused::$name)),*] };
    }
    let named = named!(
        DESCRIPTION BYTES VERSION NAME_SIZE FLAG DENSE NULL_DOMAIN NOT_A_NUMBER REVERSED TILES LAST_CELLS OFFSET FANOUT
        LEVELS OUTSIDE_PARENT OUTSIDE_DOMAIN COUNT TILE_OFFSETS WINDOW SUM WORK RUNS INFINITE BAD_LINE
        REPEATED ROOM NULL_COUNT RETIRED GRID
    );
    let mut expected = BTreeMap::from(named);
    expected.insert("NOT_REFUSED", 0);
    assert_eq!(part(is_refusal), expected);
}

#[test]
fn refusal_texts_are_the_headers() {
    let numbers = defined();
    let quoted = |line: &'static str| line.trim().strip_prefix("return \"").and_then(|rest| rest.strip_suffix("\";"));
    let mut texts = BTreeMap::new();
    for (case, text) in HEADER.lines().zip(HEADER.lines().skip(1)) {
        let name = case.trim().strip_prefix("case TUSSOCKBELL_").and_then(|rest| rest.strip_suffix(':'));
        match (name, quoted(text)) {
            (Some(name), Some(text)) => _ = texts.insert(numbers[name], text),
            (None, Some(text)) if case.trim() == "default:" => _ = texts.insert(u64::MAX, text),
            _ => (),
        }
    }
    let own = |number| Refused { number, place: 0, which: Which::First }.text();
    let refusals = part(is_refusal).into_values();
    assert_eq!(texts, refusals.chain([u64::MAX]).map(|number| (number, own(number))).collect());
}

#[test]
fn the_version_is_the_headers() {
    let line = format!("{VERSION} \"{}\"", tussockbell::VERSION);
    assert!(HEADER.lines().any(|one| one == line), "the header has not {line}");
}
