//! Mins, maxes, sums and null counts: the library, through its C functions, against the rules, on generated bodies: sound ones, and ones with a fault
//! or several at each check's edge. Every function is asked about every body, those that check nothing too.

use crate::cases::{self, Chance};
use crate::fuzz::Change;
use crate::guard::Space;
use crate::library::lend;
use crate::rules::{self, limits, number, refusal, refuse, Answer, Description, End, Refused};
use std::collections::BTreeMap;

extern "C" {
    fn tussockbell_values(kind: u64, tiles: u64, b: *const u8, bl: usize, answer: *mut u64);
    fn tussockbell_value(kind: u64, tiles: u64, b: *const u8, bl: usize, tile: u64) -> u64;
    fn tussockbell_value_at(kind: u64, tiles: u64, b: *const u8, bl: usize, tile: u64) -> u64;
    fn tussockbell_ranges(kind: u64, tiles: u64, a: *const u8, al: usize, b: *const u8, bl: usize, answer: *mut u64);
    fn tussockbell_range(kind: u64, tiles: u64, a: *const u8, al: usize, b: *const u8, bl: usize, tile: u64, answer: *mut u64);
    fn tussockbell_var_values(tiles: u64, b: *const u8, bl: usize, answer: *mut u64);
    fn tussockbell_var_value(tiles: u64, b: *const u8, bl: usize, tile: u64, answer: *mut u64);
    fn tussockbell_var_value_at(tiles: u64, b: *const u8, bl: usize, tile: u64, answer: *mut u64);
    fn tussockbell_var_ranges(tiles: u64, a: *const u8, al: usize, b: *const u8, bl: usize, answer: *mut u64);
    fn tussockbell_sums(tiles: u64, b: *const u8, bl: usize, answer: *mut u64);
    fn tussockbell_sum(tiles: u64, b: *const u8, bl: usize, tile: u64) -> u64;
    fn tussockbell_sum_at(tiles: u64, b: *const u8, bl: usize, tile: u64) -> u64;
    fn tussockbell_null_counts(
        k: *const u8, kl: usize, fields: u64, capacity: u64, file: u64, f: *const u8, fl: usize, b: *const u8, bl: usize, answer: *mut u64,
    );
    fn tussockbell_null_count(
        k: *const u8, kl: usize, fields: u64, capacity: u64, file: u64, f: *const u8, fl: usize, b: *const u8, bl: usize, tile: u64,
    ) -> u64;
}

/// What is lent, with the number of tiles that the caller gives and the tile that it asks for.
#[derive(Clone, Debug)]
enum Case {
    Fixed { kind: u64, tiles: u64, mins: Vec<u8>, maxes: Vec<u8>, tile: u64 },
    Var { tiles: u64, mins: Vec<u8>, maxes: Vec<u8>, tile: u64 },
    Sums { tiles: u64, body: Vec<u8>, tile: u64 },
    Counts { d: Description, file_size: u64, footer: Vec<u8>, body: Vec<u8>, tile: u64 },
}

/// A wrong reading of the rules.
#[derive(Clone, Copy, PartialEq)]
enum Slip {
    None,
    LastFull,
    OrderFirst,
    LastEndsAtZero,
    SizeNotCounted,
    InfinityRefused,
    UnsignedOrder,
}

// ---- the rules

fn second<T>(answer: Answer<T>) -> Answer<T> {
    answer.map_err(|r| Refused { which: 1, ..r })
}

/// A number at a place that may be past every byte.
fn at(data: &[u8], place: u128, size: usize) -> u64 {
    if place < data.len() as u128 { number(data, place as usize, size) } else { 0 }
}

fn entry(data: &[u8], width: usize, tile: u64) -> u64 {
    at(data, 8 + width as u128 * u128::from(tile), width)
}

fn count(tiles: u64, data: &[u8]) -> Answer<()> {
    if !limits::TILES.contains(&tiles) {
        return refuse(refusal::TILES, 0);
    }
    if data.len() < 8 {
        return refuse(refusal::BYTES, data.len());
    }
    if number(data, 0, 8) != tiles { refuse(refusal::COUNT, 0) } else { Ok(()) }
}

/// The size of the var buffer, of a body that is laid out for so many values.
fn layout(width: usize, tiles: u64, data: &[u8], slip: Slip) -> Answer<u64> {
    count(tiles, data)?;
    let end = 16 + width as u64 * tiles;
    let size = number(data, end as usize - 8, 8);
    let total = match slip {
        Slip::SizeNotCounted => u128::from(end),
        _ => u128::from(end) + u128::from(size),
    };
    if total != data.len() as u128 { refuse(refusal::BYTES, data.len()) } else { Ok(size) }
}

fn kind_of(number: u64) -> Option<rules::Kind> {
    u8::try_from(number).ok().and_then(rules::kind)
}

fn width(kind: u64) -> usize {
    kind_of(kind).map_or(8, |k| k.range_bytes / 2)
}

fn value(kind: u64, data: &[u8], tile: u64) -> End {
    End::read(kind as u8, data, 8 + width(kind) * tile as usize)
}

fn fixed(kind: u64, tiles: u64, data: &[u8], slip: Slip) -> Answer<()> {
    if kind_of(kind).is_none() {
        return refuse(refusal::DESCRIPTION, 0);
    }
    if layout(width(kind), tiles, data, slip)? != 0 {
        return refuse(refusal::BYTES, data.len());
    }
    let bad = |v: End| v.is_nan() || (slip == Slip::InfinityRefused && v.is_infinite());
    match (0..tiles).find(|i| bad(value(kind, data, *i))) {
        Some(i) => refuse(refusal::NOT_A_NUMBER, 8 + width(kind) * i as usize),
        None => Ok(()),
    }
}

fn above(kind: u64, mins: &[u8], maxes: &[u8], tile: u64, slip: Slip) -> bool {
    let (low, high) = (value(kind, mins, tile), value(kind, maxes, tile));
    if slip == Slip::UnsignedOrder {
        return entry(mins, width(kind), tile) > entry(maxes, width(kind), tile);
    }
    !low.is_nan() && !high.is_nan() && !low.at_most(high)
}

fn pair(kind: u64, tiles: u64, mins: &[u8], maxes: &[u8], slip: Slip) -> Answer<()> {
    fixed(kind, tiles, mins, slip)?;
    let order = || match (0..tiles).find(|i| above(kind, mins, maxes, *i, slip)) {
        Some(i) => second(refuse(refusal::REVERSED, 8 + width(kind) * i as usize)),
        None => Ok(()),
    };
    let sound = second(fixed(kind, tiles, maxes, slip));
    if slip == Slip::OrderFirst && sound.is_err_and(|r| r.number == refusal::NOT_A_NUMBER) {
        order()?;
    }
    sound?;
    order()
}

fn var(tiles: u64, data: &[u8], slip: Slip) -> Answer<()> {
    let size = layout(8, tiles, data, slip)?;
    for i in 0..tiles {
        let start = entry(data, 8, i);
        if (if i == 0 { start != 0 } else { start < entry(data, 8, i - 1) }) || start > size {
            return refuse(refusal::TILE_OFFSETS, 8 + 8 * i as usize);
        }
    }
    Ok(())
}

/// Where a value lies in any bytes: nowhere, if it would not lie in them.
fn part(tiles: u64, data: &[u8], tile: u64, slip: Slip) -> [u64; 2] {
    if tile >= tiles {
        return [0, 0];
    }
    let size = if slip == Slip::LastEndsAtZero { 0 } else { entry(data, 8, tiles) };
    let (start, end) = (entry(data, 8, tile), if tile + 1 < tiles { entry(data, 8, tile + 1) } else { size });
    let (from, length) = (16 + 8 * u128::from(tiles) + u128::from(start), end.saturating_sub(start));
    if from + u128::from(length) <= data.len() as u128 { [from as u64, length] } else { [0, 0] }
}

fn sums(tiles: u64, data: &[u8]) -> Answer<()> {
    count(tiles, data)?;
    if data.len() as u64 != 8 + 8 * tiles { refuse(refusal::BYTES, data.len()) } else { Ok(()) }
}

/// The number of tiles.
fn counts(d: &Description, file_size: u64, footer: &[u8], data: &[u8], slip: Slip) -> Answer<u64> {
    let f = rules::footer(d, file_size, footer)?;
    second(sums(f.tiles, data))?;
    for i in 0..f.tiles {
        let cells = if slip == Slip::LastFull { d.capacity } else { rules::cells(&f, d.capacity, i) };
        if entry(data, 8, i) > cells {
            return second(refuse(refusal::NULL_COUNT, 8 + 8 * i as usize));
        }
    }
    Ok(f.tiles)
}

/// Number, place, tiles.
fn one(answer: &Answer<()>, tiles: u64) -> [u64; 3] {
    match answer {
        Ok(()) => [0, 0, tiles],
        Err(r) => [r.number, r.place, 0],
    }
}

/// Number, place, which, tiles.
fn two(answer: &Answer<u64>) -> [u64; 4] {
    match answer {
        Ok(tiles) => [0, 0, 0, *tiles],
        Err(r) => [r.number, r.place, r.which, 0],
    }
}

/// All numbers that the functions answer.
fn right(case: &Case, slip: Slip) -> Vec<u64> {
    let mut all = vec![];
    match case {
        Case::Fixed { kind, tiles, mins, maxes, tile } => {
            let there = kind_of(*kind).is_some() && tile < tiles;
            let raw = |body: &[u8]| if there { entry(body, width(*kind), *tile) } else { 0 };
            for body in [mins, maxes] {
                let said = fixed(*kind, *tiles, body, slip);
                all.extend(one(&said, *tiles));
                all.extend([said.map_or(0, |()| raw(body)), raw(body)]);
            }
            let said = pair(*kind, *tiles, mins, maxes, slip).map(|()| *tiles);
            all.extend(two(&said));
            all.extend(said.map_or([0, 0], |_| [raw(mins), raw(maxes)]));
        }
        Case::Var { tiles, mins, maxes, tile } => {
            for body in [mins, maxes] {
                let said = var(*tiles, body, slip);
                all.extend(one(&said, *tiles));
                all.extend(said.map_or([0, 0], |()| part(*tiles, body, *tile, slip)));
                all.extend(part(*tiles, body, *tile, slip));
            }
            let both = var(*tiles, mins, slip).and_then(|()| second(var(*tiles, maxes, slip)));
            all.extend(two(&both.map(|()| *tiles)));
        }
        Case::Sums { tiles, body, tile } => {
            let (said, raw) = (sums(*tiles, body), if tile < tiles { entry(body, 8, *tile) } else { 0 });
            all.extend(one(&said, *tiles));
            all.extend([said.map_or(0, |()| raw), raw]);
        }
        Case::Counts { d, file_size, footer, body, tile } => {
            let said = counts(d, *file_size, footer, body, slip);
            all.extend(two(&said));
            all.push(said.map_or(0, |tiles| if *tile < tiles { entry(body, 8, *tile) } else { 0 }));
        }
    }
    all
}

// ---- the library

fn ask(case: &Case, mut space: Option<&mut Space>) -> Vec<u64> {
    if let Some(space) = &mut space {
        space.again();
    }
    let (mut all, mut three, mut four) = (vec![], [u64::MAX; 3], [u64::MAX; 4]);
    let (mut pair, mut again) = ([u64::MAX; 2], [u64::MAX; 2]);
    match case {
        Case::Fixed { kind, tiles, mins, maxes, tile } => unsafe {
            let (a, b) = (lend(mins, &mut space), lend(maxes, &mut space));
            for (body, length) in [(a, mins.len()), (b, maxes.len())] {
                tussockbell_values(*kind, *tiles, body, length, three.as_mut_ptr());
                all.extend(three);
                all.push(tussockbell_value(*kind, *tiles, body, length, *tile));
                all.push(tussockbell_value_at(*kind, *tiles, body, length, *tile));
            }
            tussockbell_ranges(*kind, *tiles, a, mins.len(), b, maxes.len(), four.as_mut_ptr());
            tussockbell_range(*kind, *tiles, a, mins.len(), b, maxes.len(), *tile, pair.as_mut_ptr());
            all.extend(four);
            all.extend(pair);
        },
        Case::Var { tiles, mins, maxes, tile } => unsafe {
            let (a, b) = (lend(mins, &mut space), lend(maxes, &mut space));
            for (body, length) in [(a, mins.len()), (b, maxes.len())] {
                tussockbell_var_values(*tiles, body, length, three.as_mut_ptr());
                tussockbell_var_value(*tiles, body, length, *tile, pair.as_mut_ptr());
                tussockbell_var_value_at(*tiles, body, length, *tile, again.as_mut_ptr());
                all.extend(three);
                all.extend(pair);
                all.extend(again);
            }
            tussockbell_var_ranges(*tiles, a, mins.len(), b, maxes.len(), four.as_mut_ptr());
            all.extend(four);
        },
        Case::Sums { tiles, body, tile } => unsafe {
            let (b, length) = (lend(body, &mut space), body.len());
            tussockbell_sums(*tiles, b, length, three.as_mut_ptr());
            all.extend(three);
            all.push(tussockbell_sum(*tiles, b, length, *tile));
            all.push(tussockbell_sum_at(*tiles, b, length, *tile));
        },
        Case::Counts { d, file_size, footer, body, tile } => unsafe {
            let (k, f, b) = (lend(&d.kinds, &mut space), lend(footer, &mut space), lend(body, &mut space));
            let (kl, fl, bl) = (d.kinds.len(), footer.len(), body.len());
            tussockbell_null_counts(k, kl, d.fields, d.capacity, *file_size, f, fl, b, bl, four.as_mut_ptr());
            let asked = tussockbell_null_count(k, kl, d.fields, d.capacity, *file_size, f, fl, b, bl, *tile);
            assert!(four[0] != 0 || asked == tussockbell_sum_at(four[3], b, bl, *tile), "a null count with and without the check differ");
            all.extend(four);
            all.push(asked);
        },
    }
    all
}

// ---- generated bodies

/// The patterns that matter of a kind: around zero and the ends, both zeros, infinities, and seldom a NaN.
fn pattern(c: &mut Chance, kind: u64) -> u64 {
    let small = c.below(9) as i64 - 4;
    match (kind, c.one_in(60)) {
        (0, _) => c.of(&[small as i32 as u32, small as i32 as u32, i32::MIN as u32, i32::MAX as u32]).into(),
        (1, _) => c.of(&[small as u64, small as u64, i64::MIN as u64, i64::MAX as u64]),
        (2, true) => c.of(&[0x7f80_0001u32, 0x7fc0_0000, 0xff80_0001, 0xffff_ffff]).into(),
        (3, true) => c.of(&[0x7ff0_0000_0000_0001u64, 0x7ff8_0000_0000_0000, 0xfff0_0000_0000_0001, u64::MAX]),
        (2, false) => c.of(&[small as f32, small as f32, 0.0, -0.0, f32::INFINITY, f32::NEG_INFINITY, f32::MIN_POSITIVE]).to_bits().into(),
        (3, false) => c.of(&[small as f64, small as f64, 0.0, -0.0, f64::INFINITY, f64::NEG_INFINITY, f64::MIN_POSITIVE]).to_bits(),
        _ => c.of(&[small as u64, small.unsigned_abs(), u64::MAX, 0]),
    }
}

fn some_tiles(c: &mut Chance) -> u64 {
    if c.one_in(200) { 1 + c.below(3_000) } else { c.of(&[1, 1, 2, 2, 3, 4, 5, 8, 9, 16, 17, 40]) }
}

/// The number that the caller gives: mostly that of the body.
fn given(c: &mut Chance, tiles: u64) -> u64 {
    if c.one_in(25) { c.of(&[0, tiles - 1, tiles + 1, *limits::TILES.end(), limits::TILES.end() + 1, u64::MAX, tiles << 32]) } else { tiles }
}

fn some_tile(c: &mut Chance, tiles: u64) -> u64 {
    if c.one_in(8) { c.of(&[tiles, tiles + 1, u64::MAX, u64::MAX / 8, u64::MAX / 4 + 1, 1 << 61]) } else { c.below(tiles) }
}

fn framed(tiles: u64, values: Vec<u8>, size: u64, buffer: Vec<u8>) -> Vec<u8> {
    [&tiles.to_le_bytes()[..], &values, &size.to_le_bytes(), &buffer].concat()
}

/// Some damage to a body whose values end at `end`.
fn damage(c: &mut Chance, data: &mut Vec<u8>, end: usize) {
    match c.below(30) {
        0 => data.truncate(c.below(data.len() as u64 + 1) as usize),
        1 => data.truncate(c.of(&[0, 7, 8, 9, 15, 16])),
        2 => data.extend(vec![0; c.of(&[1, 4, 8, 24])]),
        3 => drop(data.pop()),
        4 if end + 8 <= data.len() => {
            // a size that the bytes have, that they don't have, and that wraps to theirs
            let (more, size) = (c.of(&[0usize, 1, 8]), number(data, end, 8));
            let wraps = (data.len() as u64).wrapping_sub(end as u64 + 8);
            let new = c.of(&[size + more as u64, 1, u64::MAX, u64::MAX - 7, wraps, wraps.wrapping_sub(1), (end as u64 + 8).wrapping_neg()]);
            data[end..end + 8].copy_from_slice(&new.to_le_bytes());
            data.extend(vec![1; more]);
        }
        5 => {
            let (at, bit) = (c.below(data.len() as u64) as usize, c.below(8));
            data[at] ^= 1 << bit;
        }
        6 => data[..8].copy_from_slice(&c.of(&[0, 1, u64::MAX, 1 << 32]).to_le_bytes()),
        _ => (),
    }
}

fn make_fixed(c: &mut Chance) -> Case {
    let kind = if c.one_in(40) { c.of(&[4, 5, 9, 11, 255, 256, 258, 1 << 32, u64::MAX]) } else { c.of(&[0, 1, 2, 3, 10]) };
    let (n, w, in_order) = (some_tiles(c), width(kind), !c.one_in(6));
    let (mut mins, mut maxes) = (vec![], vec![]);
    for _ in 0..n {
        let (mut a, mut b) = (pattern(c, kind), pattern(c, kind));
        let first = [&[0; 8][..], &a.to_le_bytes()].concat();
        let other = [&[0; 8][..], &b.to_le_bytes()].concat();
        if (in_order || !c.one_in(3)) && kind_of(kind).is_some() && !value(kind, &first, 0).at_most(value(kind, &other, 0)) {
            (a, b) = (b, a);
        }
        mins.extend(&a.to_le_bytes()[..w]);
        maxes.extend(&b.to_le_bytes()[..w]);
    }
    let (mut mins, mut maxes) = (framed(n, mins, 0, vec![]), framed(n, maxes, 0, vec![]));
    damage(c, &mut mins, 8 + w * n as usize);
    damage(c, &mut maxes, 8 + w * n as usize);
    Case::Fixed { kind, tiles: given(c, n), mins, maxes, tile: some_tile(c, n) }
}

fn var_body(c: &mut Chance, n: u64) -> Vec<u8> {
    let most = c.of(&[0u64, 0, 1, 3, 9, 60]);
    let mut starts: Vec<u64> = (0..n).map(|_| c.below(most + 1)).collect();
    starts.sort_unstable();
    starts[0] = 0;
    let size = if c.one_in(2) { starts[n as usize - 1] } else { most };
    if c.one_in(12) {
        let i = c.below(n) as usize;
        starts[i] = c.of(&[size, size + 1, 1, 0, u64::MAX, u64::MAX - 16 - 8 * n]);
    }
    let values: Vec<u8> = starts.iter().flat_map(|s| s.to_le_bytes()).collect();
    let mut data = framed(n, values, size, (0..size).map(|i| i as u8).collect());
    damage(c, &mut data, 8 + 8 * n as usize);
    data
}

fn make_counts(c: &mut Chance) -> Case {
    let n = some_tiles(c);
    let mut kinds: Vec<u8> = (0..1 + c.below(3)).map(|_| c.of(&[0, 1, 3, 10])).collect();
    if c.one_in(20) {
        *kinds.last_mut().unwrap() = rules::FLOAT32.number;
    }
    let mut d = Description { kinds, fields: 1 + c.below(3), capacity: c.of(&[1, 2, 7, 100, *limits::CAPACITY.end()]) };
    let width = d.box_bytes();
    let mut footer = cases::footer_around(&d, n, &vec![0; width]);
    let last = 1 + c.below(d.capacity);
    footer[23 + width..31 + width].copy_from_slice(&last.to_le_bytes());
    let mut file_size = footer.len() as u64 + 1 + c.below(1_000);
    let full: Vec<u64> = (0..n).map(|i| if i + 1 < n { d.capacity } else { last }).collect();
    let near = |c: &mut Chance, cells: u64| {
        let less = c.below(cells + 1);
        c.of(&[0, less, cells, cells])
    };
    let mut entries: Vec<u64> = full.iter().map(|cells| near(c, *cells)).collect();
    if c.one_in(4) {
        let i = if c.one_in(2) { n - 1 } else { c.below(n) } as usize;
        entries[i] = c.of(&[full[i] + 1, d.capacity, d.capacity + 1, u64::MAX]);
    }
    let mut body = [vec![n], entries].concat().iter().flat_map(|x| x.to_le_bytes()).collect();
    damage(c, &mut body, usize::MAX - 8);
    match c.below(40) {
        0 => d.capacity = c.of(&[0, limits::CAPACITY.end() + 1]),
        1 => d.fields = c.of(&[0, 65]),
        2 => footer.truncate(c.below(footer.len() as u64 + 1) as usize),
        3 | 4 => {
            let (at, bit) = (c.below(footer.len() as u64) as usize, c.below(8));
            footer[at] ^= 1 << bit;
        }
        5 => file_size = c.of(&[0, footer.len() as u64 - 1, footer.len() as u64]),
        6 => d.kinds[0] = 255,
        _ => (),
    }
    Case::Counts { d, file_size, footer, body, tile: some_tile(c, n) }
}

fn make(c: &mut Chance) -> Case {
    match c.below(8) {
        0..=3 => make_fixed(c),
        4 | 5 => {
            let n = some_tiles(c);
            Case::Var { tiles: given(c, n), mins: var_body(c, n), maxes: var_body(c, n), tile: some_tile(c, n) }
        }
        6 => {
            let n = some_tiles(c);
            let mut body = n.to_le_bytes().to_vec();
            body.extend((0..n).flat_map(|_| c.next().to_le_bytes()));
            damage(c, &mut body, usize::MAX - 8);
            Case::Sums { tiles: given(c, n), body, tile: some_tile(c, n) }
        }
        _ => make_counts(c),
    }
}

fn bodies(case: &mut Case) -> Vec<&mut Vec<u8>> {
    match case {
        Case::Fixed { mins, maxes, .. } | Case::Var { mins, maxes, .. } => vec![mins, maxes],
        Case::Sums { body, .. } => vec![body],
        Case::Counts { footer, body, .. } => vec![footer, body],
    }
}

/// A case whose bytes were changed: do the library and the rules agree?
pub fn changed(c: &mut Chance, change: Change) -> bool {
    let mut case = make(c);
    change(&mut bodies(&mut case));
    ask(&case, None) == right(&case, Slip::None)
}

// ---- the comparison

/// The slips of the rules, as a library that makes them would answer: each must be told from what is right.
fn slips(seed: u64) {
    let all = [
        ("null counts against the full capacity in the last tile", Slip::LastFull),
        ("a min above its max before a later NaN", Slip::OrderFirst),
        ("the last var value to a start that is not there", Slip::LastEndsAtZero),
        ("the var buffer's size not in the total", Slip::SizeNotCounted),
        ("an infinity refused", Slip::InfinityRefused),
        ("patterns compared as unsigned numbers", Slip::UnsignedOrder),
    ];
    for (name, slip) in all {
        let caught = (0..100_000).any(|i| {
            let case = make(&mut Chance::new(seed, i));
            right(&case, slip) != right(&case, Slip::None)
        });
        assert!(caught, "the slip was not caught: {name}");
    }
    println!("differential: {} slips of tile values are caught", all.len());
}

struct Tally {
    seed: u64,
    inputs: u64,
    guarded: u64,
    refusals: BTreeMap<(u64, u64), u64>,
    space: Space,
}

impl Tally {
    fn compare(&mut self, case: &Case, made: u64) {
        let right = right(case, Slip::None);
        let guards = self.inputs % 20 == 0;
        let said = ask(case, if guards { Some(&mut self.space) } else { None });
        if said != right {
            eprintln!("differential: what values {made} of seed {} make differs", self.seed);
            eprintln!("{case:?}\nthe rules: {right:x?}\nthe library: {said:x?}");
            std::process::exit(1);
        }
        self.inputs += 1;
        self.guarded += u64::from(guards);
        let told = match case {
            Case::Fixed { .. } => (right[10], right[12]),
            Case::Var { .. } => (right[14], right[16]),
            Case::Sums { .. } => (right[0], 0),
            Case::Counts { .. } => (right[0], right[2]),
        };
        *self.refusals.entry(told).or_insert(0) += 1;
    }

    /// A case with each byte changed, and cut at each length.
    fn damaged(&mut self, case: &Case, made: u64) {
        let mut case = case.clone();
        for i in 0..bodies(&mut case).len() {
            let whole = bodies(&mut case)[i].clone();
            for at in 0..whole.len().min(400) {
                for change in [1u8, 128, 255] {
                    bodies(&mut case)[i][at] ^= change;
                    self.compare(&case, made);
                    bodies(&mut case)[i][at] ^= change;
                }
                bodies(&mut case)[i].truncate(at);
                self.compare(&case, made);
                *bodies(&mut case)[i] = whole.clone();
            }
        }
    }
}

pub fn compare(inputs: u64, seed: u64) {
    slips(seed);
    let mut tally = Tally { seed, inputs: 0, guarded: 0, refusals: BTreeMap::new(), space: Space::new() };
    for i in 0..inputs {
        let case = make(&mut Chance::new(seed, i));
        tally.compare(&case, i);
        if i % 2_000 < 4 {
            tally.damaged(&case, i);
        }
    }
    if inputs >= 100_000 {
        use refusal::*;
        let first = [0, DESCRIPTION, BYTES, NOT_A_NUMBER, TILES, COUNT, TILE_OFFSETS, VERSION, NAME_SIZE, LAST_CELLS, RETIRED].map(|number| (number, 0));
        let second = [BYTES, NOT_A_NUMBER, REVERSED, COUNT, TILE_OFFSETS, NULL_COUNT].map(|number| (number, 1));
        for expected in first.into_iter().chain(second) {
            assert!(tally.refusals.contains_key(&expected), "no input was refused with {expected:?}");
        }
        assert!(tally.guarded >= inputs / 20);
    }
    println!("differential: {} tile values agree, {} of them between guard pages; refusals {:?}", tally.inputs, tally.guarded, tally.refusals);
}
