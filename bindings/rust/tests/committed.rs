//! Committed folders through the binding: against the rules of tests/differential on small listings of every
//! combination, and what it lends.

// Declared by a macro, so that rustfmt leaves these files as they are.
macro_rules! rules_modules {
    ($($name:ident $path:literal)*) => {
        $(
            #[allow(dead_code, clippy::all)]
            #[path = $path]
            mod $name;
        )*
    };
}

rules_modules! {
    listing "../../../tests/differential/src/listing.rs"
    rules "../../../tests/differential/src/rules.rs"
}

use tussockbell::{committed, Refused, Which};

const BEFORE: u32 = 7_777_777;

/// The binding and the rules agree, with every room from none to more than is found.
fn agree(text: &[u8], time: u64) {
    for room in 0..6 {
        let mut out = vec![BEFORE; room];
        let right = listing::committed(text, time);
        match committed(text, time, &mut out) {
            Ok(answer) => {
                let found = right.expect("the rules refuse it");
                let some = &found[..room.min(found.len())];
                assert_eq!((answer.lines, answer.found), (some, found.len() as u64));
                let names: Vec<&[u8]> = some.iter().map(|line| listing::name_at(text, *line)).collect();
                assert_eq!(answer.names().map(str::as_bytes).collect::<Vec<_>>(), names);
                assert!(out[some.len()..].iter().all(|place| *place == BEFORE));
            }
            Err(refused) => {
                let right = right.expect_err("the rules accept it");
                assert_eq!(refused, Refused { number: right.number, place: right.place, which: Which::First });
                assert!(out.iter().all(|place| *place == BEFORE));
            }
        }
    }
}

#[test]
fn every_short_listing_is_answered_by_the_rules() {
    let lines = [
        "folder\t__1_2_ab_16",
        "wrt\t__1_2_ab_16",
        "con\t__1_2_ab_16",
        "ign\t__1_2_ab_16",
        "folder\t__1_3_Aa_21",
        "con\t__1_3_BB_21",
        "con\t__1_3_Aa_21",
        "",
        "Folder\t__1_2_ab_16",
    ];
    let mut compared = 0;
    for code in 0..lines.len().pow(4) {
        let some: Vec<&str> = (0..4).map(|i| lines[code / lines.len().pow(i) % lines.len()]).collect();
        for time in [1, 2, 3, u64::MAX] {
            agree(some.join("\n").as_bytes(), time);
            compared += 1;
        }
    }
    assert_eq!(compared, 4 * 6_561);
}

#[test]
fn the_most_lines() {
    for number in [1_023, 1_024, 1_025] {
        let text: String = (0..number).map(|i| format!("{}\t__1_2_{}_16\n", ["folder", "wrt"][i % 2], i / 2)).collect();
        agree(text.as_bytes(), 5);
        agree(text.trim_end().as_bytes(), 5);
    }
}

#[test]
fn names_outlive_the_buffer() {
    let text = b"folder\t__1_2_ab_16\nwrt\t__1_2_ab_16\n".to_vec();
    let names: Vec<&str> = {
        let mut out = [0; 1];
        let answer = committed(&text, 2, &mut out).unwrap();
        answer.names().collect()
    };
    assert_eq!(names, ["__1_2_ab_16"]);
}
