//! Trees and footers of float32 dimensions, converted: the library, through its C functions, against rules that keep the reading of float32 that was
//! right before it was retired. Refusals by number, place and which; every byte of the output buffer; and each old query against the widened one on the
//! converted tree, over sound trees and over every body of the right shape.

use crate::cases::{self, Chance, SINGLES};
use crate::guard::Space;
use crate::library::lend;
use crate::rules::{self, limits, refusal, Answer, Description, FLOAT32, FLOAT64, KINDS};
use std::collections::BTreeMap;

const FILLER: u8 = 0xa5;
/// Where footer answers have what a conversion changes: the length field, the domain.
const FOOTER_PLACES: usize = 730;
const LENGTH: usize = 13;
const DOMAIN: std::ops::Range<usize> = 14..26;

extern "C" {
    fn tussockbell_convert(
        k: *const u8, kl: usize, fields: u64, capacity: u64, file: u64, f: *const u8, fl: usize, t: *const u8, tl: usize, out: *mut u8, ol: usize,
        answer: *mut u64,
    );
    fn tussockbell_convert_length(
        k: *const u8, kl: usize, fields: u64, capacity: u64, file: u64, f: *const u8, fl: usize, t: *const u8, tl: usize, answer: *mut u64,
    );
    fn tussockbell_convert_footer(
        k: *const u8, kl: usize, fields: u64, capacity: u64, file: u64, f: *const u8, fl: usize, out: *mut u8, ol: usize, answer: *mut u64,
    );
    fn tussockbell_footer(k: *const u8, kl: usize, fields: u64, capacity: u64, file: u64, f: *const u8, fl: usize, answer: *mut u64);
    fn tussockbell_open(
        k: *const u8, kl: usize, fields: u64, capacity: u64, file: u64, f: *const u8, fl: usize, t: *const u8, tl: usize, answer: *mut u64,
    );
    fn tussockbell_query(
        k: *const u8, kl: usize, fields: u64, capacity: u64, tiles: u64, t: *const u8, tl: usize, wk: *const u8, wkl: usize, we: *const u8, wel: usize,
        out: *mut u32, ol: usize, answer: *mut u64,
    );
}

#[derive(Clone, Debug)]
struct Case {
    d: Description,
    file_size: u64,
    footer: Vec<u8>,
    tree: Vec<u8>,
    /// More or fewer bytes than what is written has.
    spare: i64,
}

// ---- the rules

/// A way to widen a pattern that is wrong.
#[derive(Clone, Copy, PartialEq)]
enum Slip {
    None,
    SignLost,
    FractionLost,
    NoSubnormals,
    MinimumTwice,
    OldLengthField,
}

fn widened_end(end: &[u8], slip: Slip) -> [u8; 8] {
    let single = f32::from_le_bytes(end.try_into().unwrap());
    let double = match slip {
        Slip::SignLost => f64::from(single).abs(),
        Slip::FractionLost => f64::from(f32::from_bits(single.to_bits() & !1)),
        Slip::NoSubnormals if single.is_subnormal() => 0.0f64.copysign(single.into()),
        _ => f64::from(single),
    };
    double.to_le_bytes()
}

fn widened_kinds(kinds: &[u8]) -> Vec<u8> {
    kinds.iter().map(|kind| if *kind == FLOAT32.number { FLOAT64.number } else { *kind }).collect()
}

fn widened(d: &Description) -> Description {
    Description { kinds: widened_kinds(&d.kinds), ..d.clone() }
}

/// Boxes or windows of these kinds, side by side; what is left past the last whole side stays.
fn widened_sides(kinds: &[u8], data: &[u8], slip: Slip) -> Vec<u8> {
    let (mut made, mut at) = (vec![], 0);
    for kind in kinds.iter().cycle() {
        let Some(side) = data.get(at..at + rules::width(*kind)) else { break };
        at += side.len();
        if *kind == FLOAT32.number {
            made.extend(widened_end(&side[..4], slip));
            made.extend(widened_end(if slip == Slip::MinimumTwice { &side[..4] } else { &side[4..] }, slip));
        } else {
            made.extend(side);
        }
    }
    made.extend(&data[at..]);
    made
}

/// A window's ends; a side that is not all there counts as from 0 to 0.
fn whole_sides(kinds: &[u8], ends: &[u8]) -> Vec<u8> {
    let mut made = vec![];
    for width in kinds.iter().map(|kind| rules::width(*kind)) {
        let side = ends.get(made.len()..made.len() + width).map_or(vec![0; width], <[u8]>::to_vec);
        made.extend(side);
    }
    made
}

/// A body of the right shape with its boxes widened.
fn widened_body(d: &Description, shape: &rules::Shape, body: &[u8], slip: Slip) -> Vec<u8> {
    let mut made = body[..8].to_vec();
    for (start, count) in shape.starts.iter().zip(&shape.counts) {
        made.extend(&body[start - 8..*start]);
        made.extend(widened_sides(&d.kinds, &body[*start..start + *count as usize * d.box_bytes()], slip));
    }
    made
}

fn old_open(case: &Case) -> Answer<(u64, u64, u64)> {
    case.d.check_limits()?;
    rules::described_open(&case.d, case.file_size, &case.footer, &case.tree)
}

fn tree_of(case: &Case, slip: Slip) -> Answer<Vec<u8>> {
    let (tiles, ..) = old_open(case)?;
    Ok(widened_body(&case.d, &rules::shape(&case.d, tiles, &case.tree)?, &case.tree, slip))
}

fn footer_of(case: &Case, slip: Slip) -> Answer<Vec<u8>> {
    let (d, footer) = (&case.d, &case.footer);
    d.check_limits()?;
    let start = rules::described_footer(d, case.file_size, footer)?.domain_at;
    let (end, last) = (start + d.box_bytes(), footer.len() - 8);
    let mut made = [&footer[..start], &widened_sides(&d.kinds, &footer[start..end], slip), &footer[end..last]].concat();
    let length = if slip == Slip::OldLengthField { last } else { made.len() } as u64;
    made.extend(length.to_le_bytes());
    Ok(made)
}

/// What is answered, and what the buffer then holds, where so much is to be written.
fn right(written: Answer<Vec<u8>>, spare: i64) -> ([u64; 4], Vec<u8>) {
    let length = written.as_ref().map_or(40, Vec::len);
    let mut out = vec![FILLER; (length as i64 + spare).max(0) as usize];
    match written {
        Err(r) => ([r.number, r.place, r.which, 0], out),
        Ok(_) if out.len() < length => ([refusal::ROOM, 0, 0, 0], out),
        Ok(written) => {
            out[..length].copy_from_slice(&written);
            ([0, 0, 0, length as u64], out)
        }
    }
}

// ---- cases

fn make(c: &mut Chance) -> Case {
    let number = if c.one_in(100) { c.of(&[0, limits::DIMENSIONS.end() + 1]) } else { 1 + c.below(*limits::DIMENSIONS.end()) };
    let mut kinds: Vec<u8> = (0..number).map(|_| c.of(&KINDS).number).collect();
    if number > 0 && !c.one_in(8) {
        kinds[c.below(number) as usize] = FLOAT32.number;
    }
    if number > 0 && c.one_in(100) {
        kinds[c.below(number) as usize] = c.of(&[4, 9, 255]);
    }
    let fields = if c.one_in(100) { c.of(&[0, limits::FIELDS.end() + 1]) } else { 1 + c.below(3) };
    let capacity = if c.one_in(100) { c.of(&[0, limits::CAPACITY.end() + 1]) } else { 10 };
    let d = Description { kinds, fields, capacity };
    let (mut file_size, footer, _, tree) = cases::pair(c, &d);
    if c.one_in(40) {
        file_size = u64::MAX - c.below(40);
    }
    Case { d, file_size, footer, tree, spare: c.of(&[0, 0, 0, 1, 9, -1, -8, -10_000]) }
}

/// A sound tree of one float32 dimension with these leaves, in two rows, and a window for each.
fn of_ends(ends: &[f32]) -> Case {
    let range = |low: f32, high: f32| [low.to_le_bytes(), high.to_le_bytes()].concat();
    let (count, first, last) = (ends.len() as u64, ends[0], *ends.last().unwrap());
    let mut tree = [1_024u32.to_le_bytes(), 2u32.to_le_bytes()].concat();
    tree.extend([&1u64.to_le_bytes()[..], &range(first, last), &count.to_le_bytes()].concat());
    ends.iter().for_each(|end| tree.extend(range(*end, *end)));
    let d = Description { kinds: vec![FLOAT32.number], fields: 1, capacity: 10 };
    let footer = cases::footer_around(&d, count, &range(first, last));
    Case { file_size: footer.len() as u64 + 1, d, footer, tree, spare: 0 }
}

// ---- the library

fn lent_out(length: usize, own: &mut Vec<u8>, space: &mut Option<&mut Space>) -> *mut u8 {
    *own = vec![FILLER; length];
    if space.is_some() { lend(own, space) as *mut u8 } else { own.as_mut_ptr() }
}

/// Tree and footer converted, each with its buffer after it, and the length that is told beforehand.
fn ask(case: &Case, rooms: [usize; 2], mut space: Option<&mut Space>) -> [([u64; 4], Vec<u8>); 3] {
    if let Some(space) = &mut space {
        space.again();
    }
    let (d, f, t) = (&case.d, &case.footer, &case.tree);
    let (k, first, second) = (lend(&d.kinds, &mut space), lend(f, &mut space), lend(t, &mut space));
    let (mut own, mut other) = (vec![], vec![]);
    let (out, footer_out) = (lent_out(rooms[0], &mut own, &mut space), lent_out(rooms[1], &mut other, &mut space));
    let mut answers = [[u64::MAX; 4]; 3];
    let (kl, fields, capacity, file) = (d.kinds.len(), d.fields, d.capacity, case.file_size);
    unsafe {
        let [tree_answer, footer_answer, length_answer] = answers.each_mut().map(|answer| answer.as_mut_ptr());
        tussockbell_convert(k, kl, fields, capacity, file, first, f.len(), second, t.len(), out, rooms[0], tree_answer);
        tussockbell_convert_footer(k, kl, fields, capacity, file, first, f.len(), footer_out, rooms[1], footer_answer);
        tussockbell_convert_length(k, kl, fields, capacity, file, first, f.len(), second, t.len(), length_answer);
        let held = |out: *mut u8, room: usize| std::slice::from_raw_parts(out, room).to_vec();
        [(answers[0], held(out, rooms[0])), (answers[1], held(footer_out, rooms[1])), (answers[2], vec![])]
    }
}

/// The library's opening of a pair.
fn opened(d: &Description, file: u64, f: &[u8], t: &[u8]) -> [u64; 6] {
    let mut answer = [u64::MAX; 6];
    unsafe {
        tussockbell_open(
            d.kinds.as_ptr(), d.kinds.len(), d.fields, d.capacity, file, f.as_ptr(), f.len(), t.as_ptr(), t.len(), answer.as_mut_ptr(),
        )
    };
    answer
}

/// The library's query, with room for some of the tiles.
fn asked(d: &Description, n: u64, t: &[u8], kinds: &[u8], ends: &[u8], room: usize) -> ([u64; 4], Vec<u32>) {
    let (mut answer, mut out) = ([u64::MAX; 4], vec![u32::MAX; room]);
    unsafe {
        tussockbell_query(
            d.kinds.as_ptr(), d.kinds.len(), d.fields, d.capacity, n, t.as_ptr(), t.len(), kinds.as_ptr(), kinds.len(), ends.as_ptr(), ends.len(),
            out.as_mut_ptr(), room, answer.as_mut_ptr(),
        )
    };
    (answer, out)
}

fn footer_numbers(d: &Description, file: u64, f: &[u8]) -> Vec<u64> {
    let mut answer = vec![u64::MAX; FOOTER_PLACES];
    unsafe { tussockbell_footer(d.kinds.as_ptr(), d.kinds.len(), d.fields, d.capacity, file, f.as_ptr(), f.len(), answer.as_mut_ptr()) };
    answer
}

// ---- comparing

#[derive(Default)]
struct Tally {
    conversions: u64,
    guarded: u64,
    queries: u64,
    queries_of_bad_trees: u64,
    opened: u64,
    refusals: BTreeMap<(u64, u64), u64>,
}

impl Tally {
    /// Both conversions and the length, with what the rules say.
    fn compare(&mut self, case: &Case, space: Option<&mut Space>, made: u64) {
        let (tree, footer) = (tree_of(case, Slip::None), footer_of(case, Slip::None));
        let length = right(tree.clone(), 0).0;
        let rights = [right(tree, case.spare), right(footer, case.spare), (length, vec![])];
        self.guarded += u64::from(space.is_some());
        let said = ask(case, [rights[0].1.len(), rights[1].1.len()], space);
        for (what, (right, said)) in ["the tree", "the footer", "the length"].iter().zip(rights.iter().zip(&said)) {
            if right != said {
                eprintln!("convert: input {made} differs, in {what}\n{case:?}\nthe rules: {right:x?}\nthe library: {said:x?}");
                std::process::exit(1);
            }
        }
        self.conversions += 1;
        *self.refusals.entry((rights[0].0[0], rights[0].0[2])).or_insert(0) += 1;
    }

    /// What readers now say of the old pair, and of the new one.
    fn reopen(&mut self, case: &Case) {
        let Case { d, file_size, footer, tree, .. } = case;
        if let Err(r) = d.check() {
            assert_eq!(opened(d, *file_size, footer, tree), [r.number, r.place, 0, 0, 0, 0], "an old pair is not refused with 28: {case:?}");
        }
        let (Ok(new_tree), Ok(new_footer)) = (tree_of(case, Slip::None), footer_of(case, Slip::None)) else { return };
        let (n, f, levels) = old_open(case).expect("a tree that is converted is accepted");
        let Some(size) = file_size.checked_add((new_footer.len() - footer.len()) as u64) else { return };
        let wide = widened(d);
        assert_eq!(opened(&wide, size, &new_footer, &new_tree), [0, 0, 0, n, f, levels], "a converted pair is refused: {case:?}");
        let old = rules::described_footer(d, *file_size, footer).unwrap();
        let mut right = [vec![0, 0], old.numbers].concat();
        right.resize(DOMAIN.end, 0);
        for list in &old.lists {
            right.extend(list.iter().copied().chain(std::iter::repeat(0)).take(*limits::FIELDS.end() as usize));
        }
        let mut said = footer_numbers(&wide, size, &new_footer);
        said[DOMAIN].fill(0);
        said[LENGTH] -= (new_footer.len() - footer.len()) as u64;
        assert_eq!(said, right, "a converted footer has other numbers: {case:?}");
        self.opened += 1;
    }

    /// Old queries by the rules of then, and the widened ones of the converted tree by the library: answer and buffer. A body is asked that has the
    /// right shape, whatever its boxes are.
    fn queries(&mut self, case: &Case, c: &mut Chance) {
        let d = &case.d;
        let Ok(f) = d.check_limits().and_then(|()| rules::described_footer(d, case.file_size, &case.footer)) else { return };
        let Ok(shape) = rules::shape(d, f.tiles, &case.tree) else { return };
        let (wide, body) = (widened(d), widened_body(d, &shape, &case.tree, Slip::None));
        let sound = old_open(case).is_ok();
        for _ in 0..4 {
            let (kinds, ends) = cases::window(c, d);
            let Ok((found, looked)) = rules::described_query(d, f.tiles, &case.tree, &kinds, &ends) else { continue };
            let window = widened_sides(&kinds, &whole_sides(&kinds, &ends), Slip::None);
            let room = c.below(found.len() as u64 + 2) as usize;
            let (said, out) = asked(&wide, f.tiles, &body, &widened_kinds(&kinds), &window, room);
            let mut right = vec![u32::MAX; room];
            let fits = room.min(found.len());
            right[..fits].copy_from_slice(&found[..fits]);
            assert_eq!((said, out), ([0, 0, found.len() as u64, looked], right), "a widened query differs: {case:?} {kinds:?} {ends:?}");
            self.queries += 1;
            self.queries_of_bad_trees += u64::from(!sound);
        }
    }

    /// A case with each byte changed, and cut at each length.
    fn damaged(&mut self, case: &Case, made: u64) {
        for in_tree in [false, true] {
            let mut case = case.clone();
            let whole = if in_tree { case.tree.clone() } else { case.footer.clone() };
            for at in 0..whole.len().min(600) {
                for change in [1u8, 128, 255] {
                    let mut data = whole.clone();
                    data[at] ^= change;
                    *(if in_tree { &mut case.tree } else { &mut case.footer }) = data;
                    self.compare(&case, None, made);
                }
                *(if in_tree { &mut case.tree } else { &mut case.footer }) = whole[..at].to_vec();
                self.compare(&case, None, made);
            }
        }
    }

    /// Every room from none to more than is needed.
    fn rooms(&mut self, case: &Case, made: u64) {
        let Ok(written) = tree_of(case, Slip::None) else { return };
        for spare in -(written.len().min(3_000) as i64)..9 {
            self.compare(&Case { spare, ..case.clone() }, None, made);
        }
    }

    /// Both zeros, the least and the greatest subnormal and normal numbers, of either sign: a tree of all of them, and each alone, asked with each.
    fn edges(&mut self) {
        let mut ends: Vec<f32> = SINGLES.into_iter().filter(|end| end.is_finite()).collect();
        ends.sort_by(f32::total_cmp);
        let alone: Vec<Case> = ends.iter().map(|end| of_ends(&[*end, *end])).collect();
        for case in alone.iter().chain([&of_ends(&ends)]) {
            assert!(tree_of(case, Slip::None).is_ok(), "the rules refuse an edge of float32: {case:?}");
            self.compare(case, None, 0);
            self.reopen(case);
            let tiles = old_open(case).unwrap().0;
            let body = tree_of(case, Slip::None).unwrap();
            for low in SINGLES {
                for high in SINGLES.into_iter().filter(|high| low <= *high) {
                    let window = [low.to_le_bytes(), high.to_le_bytes()].concat();
                    let (found, looked) = rules::described_query(&case.d, tiles, &case.tree, &case.d.kinds, &window).unwrap();
                    let wide = widened_sides(&case.d.kinds, &window, Slip::None);
                    let (said, out) = asked(&widened(&case.d), tiles, &body, &[FLOAT64.number], &wide, found.len());
                    assert_eq!((said, out), ([0, 0, found.len() as u64, looked], found), "an edge of float32: {low} to {high}");
                    self.queries += 1;
                }
            }
        }
    }
}

/// Each slip is told from what is right.
fn slips(seed: u64) -> usize {
    let all = [Slip::SignLost, Slip::FractionLost, Slip::NoSubnormals, Slip::MinimumTwice, Slip::OldLengthField];
    for (number, slip) in all.iter().enumerate() {
        let told = |i: u64| {
            let case = make(&mut Chance::new(seed, i));
            tree_of(&case, *slip) != tree_of(&case, Slip::None) || footer_of(&case, *slip) != footer_of(&case, Slip::None)
        };
        assert!((1..20_000).any(told), "slip {number} of a conversion was not caught");
    }
    all.len()
}

pub fn compare(inputs: u64, seed: u64) {
    let (mut space, mut tally) = (Space::new(), Tally::default());
    let slips = slips(seed);
    tally.edges();
    for i in 0..inputs {
        let mut c = Chance::new(seed, i);
        let case = make(&mut c);
        tally.compare(&case, (i % 20 == 0).then_some(&mut space), i);
        tally.reopen(&case);
        tally.queries(&case, &mut c);
        if i % 2_000 == 0 {
            tally.damaged(&case, i);
        }
        if i % 500 == 0 {
            tally.rooms(&case, i);
        }
    }
    let Tally { conversions, guarded, queries, queries_of_bad_trees, opened, refusals } = tally;
    if inputs >= 20_000 {
        let first = (0..=refusal::OFFSET).chain([refusal::INFINITE, refusal::ROOM]).map(|number| (number, 0));
        let second = [refusal::BYTES, refusal::NOT_A_NUMBER, refusal::REVERSED, refusal::FANOUT, refusal::LEVELS, refusal::INFINITE];
        let boxes = [refusal::OUTSIDE_PARENT, refusal::OUTSIDE_DOMAIN];
        for expected in first.chain(second.into_iter().chain(boxes).map(|number| (number, 1))) {
            assert!(refusals.contains_key(&expected), "no old pair was refused with {expected:?}");
        }
        assert!(guarded >= inputs / 20 && opened > inputs / 10 && queries_of_bad_trees > inputs / 10, "{opened} {queries_of_bad_trees}");
    }
    println!(
        "differential: {conversions} conversions agree, {guarded} of them between guard pages, {opened} pairs opened again, {queries} old queries have the \
         same answer, {queries_of_bad_trees} of them over trees that opening refused; {slips} slips are caught; refusals {refusals:?}"
    );
}
