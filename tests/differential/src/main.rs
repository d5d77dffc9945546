//! Compares the compiled library, through its C functions, with an implementation written from the rules (`rules`), on generated inputs: valid ones,
//! damaged ones, ones with several faults, and trees of the right shape that opening would refuse. It stops at the first difference, with the seed and the
//! number of the input, from which the input can be made again.
//!
//!     differential [INPUTS] [SEED] [FIRST]
//!     differential many [TILES]
//!     differential parts [INPUTS] [SEED]
//!     differential values [INPUTS] [SEED]
//!     differential committed [INPUTS] [SEED]
//!     differential replay [INPUTS] [SEED]
//!     differential convert [INPUTS] [SEED]
//!     differential dense [INPUTS] [SEED]
//!     differential plan [INPUTS] [SEED]
//!     differential fuzz SECONDS SEED CORPUS
//!
//! The second compares whole trees and lists of so many tiles, or of as many as there may be. The third compares bodies that arrive in parts, the
//! fourth mins, maxes, sums and null counts, the fifth listings, the
//! sixth logs that are replayed, the seventh what trees and footers of float32 dimensions are converted to, the eighth dense grids and dense
//! footers, the ninth read plans. The last changes inputs from a corpus, and is linked with the shared library.
//!
//! Every number of every answer and every place of every buffer is compared, the ones that must stay as they were too. Some of the inputs are lent
//! from pages with unreadable pages on both sides.

mod blocks;
mod cases;
mod committed;
mod converter;
mod dense;
mod fuzz;
mod grid;
mod guard;
mod library;
mod listing;
mod many;
mod parts;
mod plan;
mod reached;
mod replay;
mod right;
mod rules;
mod values;

use cases::{Case, Chance};
use right::right;

/// The slips of the rules, as a library that makes them would answer: each must be told from what is right.
fn slips(seed: u64) {
    let strict = |case: &Case| cases::wrong(case, cases::Slip::Strict);
    let unsigned = |case: &Case| cases::wrong(case, cases::Slip::Unsigned);
    let signed = |case: &Case| cases::wrong(case, cases::Slip::Signed);
    let full_rows = |case: &Case| cases::wrong(case, cases::Slip::FullRows);
    let uncounted = |case: &Case| cases::wrong(case, cases::Slip::Uncounted);
    let last_extent = |case: &Case| cases::wrong(case, cases::Slip::LastExtent);
    let last_full = |case: &Case| cases::wrong(case, cases::Slip::LastFull);
    let no_empty_tile = |case: &Case| cases::wrong(case, cases::Slip::NoEmptyTile);
    let anew = |case: &Case| cases::wrong(case, cases::Slip::AnewAtTheStart);
    let refused_takes = |case: &Case| cases::wrong(case, cases::Slip::RefusedTakesAPlace);
    let all_read = |case: &Case| cases::wrong(case, cases::Slip::AllRead);
    let miss_not_read = |case: &Case| cases::wrong(case, cases::Slip::MissNotRead);
    let no_open_window = |case: &Case| cases::wrong(case, cases::Slip::NoOpenWindow);
    let last_of_equals = |case: &Case| cases::wrong(case, cases::Slip::LastOfEquals);
    let all: [(&str, &dyn Fn(&Case) -> Option<(Vec<u64>, Vec<u32>)>); 14] = [
        ("strict comparison", &strict),
        ("int32 compared as unsigned", &unsigned),
        ("uint64 compared as signed", &signed),
        ("full rows only", &full_rows),
        ("a look not counted inside the window", &uncounted),
        ("the last extent as the next offset", &last_extent),
        ("the last tile as full", &last_full),
        ("var offsets as those of tiles of fixed size", &no_empty_tile),
        ("each window of a batch from the buffer's start", &anew),
        ("a refused window that takes a place", &refused_takes),
        ("a box test that reads every dimension", &all_read),
        ("the dimension that misses not told as read", &miss_not_read),
        ("a window's infinity refused", &no_open_window),
        ("the last child's bytes between equal zeros", &last_of_equals),
    ];
    for (name, wrong) in all {
        let caught = (0..200_000).any(|i| {
            let case = cases::make(&mut Chance::new(seed, i));
            wrong(&case).is_some_and(|w| w != right(&case))
        });
        assert!(caught, "the slip was not caught: {name}");
    }
    println!("differential: {} slips are caught", all.len());
}

/// What was compared.
struct Tally {
    seed: u64,
    inputs: u64,
    guarded: u64,
    refusals: std::collections::BTreeMap<u64, u64>,
    space: guard::Space,
}

impl Tally {
    fn compare(&mut self, case: &Case, made: u64) {
        let right = right(case);
        let guards = self.inputs % 20 == 0;
        let said = library::ask(case, if guards { Some(&mut self.space) } else { None });
        if said != right {
            eprintln!("differential: what input {made} of seed {} makes differs; again with: differential 1 {} {made}", self.seed, self.seed);
            eprintln!("{case:?}\nthe rules: {right:x?}\nthe library: {said:x?}");
            std::process::exit(1);
        }
        self.inputs += 1;
        self.guarded += u64::from(guards);
        if !matches!(case, Case::Report { .. }) {
            *self.refusals.entry(right.0[0]).or_insert(0) += 1;
        }
    }

    /// A tree written with every room from none to more than it needs.
    fn rooms(&mut self, case: &Case, made: u64) {
        let Case::Write { d, tiles, fanout, leaves, .. } = case else { return };
        let Ok(length) = rules::tree_length(d, *tiles, *fanout) else { return };
        for room in 0..length.min(3_000) + 9 {
            let (d, tiles, fanout, leaves) = (d.clone(), *tiles, *fanout, leaves.clone());
            self.compare(&Case::Write { d, tiles, fanout, leaves, room }, made);
        }
    }

    /// A case with each byte changed, and cut at each length.
    fn damaged(&mut self, case: &Case, made: u64) {
        let mut case = case.clone();
        for part in 0..cases::parts(&mut case).len() {
            let whole = cases::parts(&mut case)[part].clone();
            for at in 0..whole.len().min(600) {
                for change in [1u8, 128, 255] {
                    cases::parts(&mut case)[part][at] ^= change;
                    self.compare(&case, made);
                    cases::parts(&mut case)[part][at] ^= change;
                }
                cases::parts(&mut case)[part].truncate(at);
                self.compare(&case, made);
                *cases::parts(&mut case)[part] = whole.clone();
            }
        }
    }
}

fn main() {
    if let [_, fuzz, seconds, seed, corpus] = &std::env::args().collect::<Vec<_>>()[..] {
        assert_eq!(fuzz, "fuzz");
        return fuzz::run(seconds.parse().expect("a number"), seed.parse().expect("a number"), corpus);
    }
    let compare: [(&str, fn(u64, u64)); 7] = [
        ("parts", parts::compare), ("values", values::compare), ("committed", committed::compare), ("replay", replay::compare),
        ("convert", converter::compare),
        ("dense", dense::compare),
        ("plan", plan::compare),
    ];
    if let Some((_, compare)) = compare.iter().find(|(name, _)| std::env::args().nth(1).is_some_and(|a| a == *name)) {
        let numbers: Vec<u64> = std::env::args().skip(2).map(|a| a.parse().expect("a number")).collect();
        return compare(numbers.first().copied().unwrap_or(200_000), numbers.get(1).copied().unwrap_or(20_261_116));
    }
    let many = std::env::args().nth(1).is_some_and(|a| a == "many");
    let arguments: Vec<u64> = std::env::args().skip(1 + usize::from(many)).map(|a| a.parse().expect("a number")).collect();
    if many {
        return many::compare(arguments.first().copied().unwrap_or(*rules::limits::TILES.end()));
    }
    let inputs = arguments.first().copied().unwrap_or(1_000_000);
    let seed = arguments.get(1).copied().unwrap_or(20_261_115);
    let first = arguments.get(2).copied().unwrap_or(0);
    slips(seed);
    let mut tally = Tally { seed, inputs: 0, guarded: 0, refusals: Default::default(), space: guard::Space::new() };
    for i in first..first + inputs {
        let case = cases::make(&mut Chance::new(seed, i));
        tally.compare(&case, i);
        if i % 5_000 == 0 || inputs == 1 {
            tally.damaged(&case, i);
        }
        if i % 2_000 < 20 {
            tally.rooms(&case, i);
        }
    }
    if first == 0 && inputs >= 100_000 {
        for number in (0..=rules::refusal::SUM).chain([rules::refusal::RUNS, rules::refusal::INFINITE, rules::refusal::ROOM, rules::refusal::RETIRED]) {
            assert!(tally.refusals.contains_key(&number), "no input was refused with {number}");
        }
        assert!(tally.guarded >= 5_000);
    }
    println!("differential: {} inputs agree, {} of them between guard pages; refusals {:?}", tally.inputs, tally.guarded, tally.refusals);
}
