//! The read plan, and extents and cells of a run: the library, through its C functions, against the rules, on lists of
//! either kind, sound ones and ones with a fault, runs in any order, and gaps at the edge; on small files also against
//! every byte one by one.

use crate::cases::Chance;
use crate::guard::Space;
use crate::rules::{self, limits, number, refusal, refuse, Answer};
use std::collections::{BTreeMap, BTreeSet};

type Plan = unsafe extern "C" fn(
    u64, u64, *const u8, usize, u64, *const u32, usize, *mut u8, usize, *mut u64, usize, *mut u64,
);

#[rustfmt::skip] // one line a row of parameters
extern "C" {
    fn tussockbell_read_plan(tiles: u64, size: u64, l: *const u8, ll: usize, gap: u64, r: *const u32, rl: usize,
                             work: *mut u8, wl: usize, out: *mut u64, ol: usize, answer: *mut u64);
    fn tussockbell_var_read_plan(tiles: u64, size: u64, l: *const u8, ll: usize, gap: u64, r: *const u32, rl: usize,
                                 work: *mut u8, wl: usize, out: *mut u64, ol: usize, answer: *mut u64);
    fn tussockbell_read_plan_at(tiles: u64, size: u64, l: *const u8, ll: usize, gap: u64, r: *const u32, rl: usize,
                                work: *mut u8, wl: usize, out: *mut u64, ol: usize, answer: *mut u64);
    fn tussockbell_run_extents_at(tiles: u64, size: u64, l: *const u8, ll: usize, r: *const u32, rl: usize,
                                  out: *mut u64, ol: usize);
    fn tussockbell_run_cells_at(tiles: u64, last: u64, capacity: u64, r: *const u32, rl: usize, out: *mut u64,
                                ol: usize);
}

/// What is lent, with the bytes of the work buffer, what each of them holds, and the places of the output run.
#[derive(Clone, Debug)]
struct Case {
    var: bool,
    tiles: u64,
    size: u64,
    list: Vec<u8>,
    gap: u64,
    run: Vec<u32>,
    work: usize,
    held: u8,
    room: usize,
    last_cells: u64,
    capacity: u64,
}

/// A wrong reading of the rules.
#[derive(Clone, Copy, PartialEq)]
enum Slip {
    None,
    BelowTheGap,
    LastToTheNextOffset,
    RepeatsCounted,
    EmptyJoins,
    HalfARange,
    InTheRunsOrder,
    WorkRoundedDown,
    BytesWithoutGaps,
    OutsideOnce,
}

// ---- the rules

const BEFORE: u64 = 0xdead_0000_0000;

/// Where a tile's bytes start and end, for any bytes of a list: a byte that is not there counts as 0.
fn tile_bytes(case: &Case, tile: u64, slip: Slip) -> (u64, u64) {
    let entry = |i: u64| number(&case.list, 8 + 8 * i as usize, 8);
    let last = tile + 1 == case.tiles && slip != Slip::LastToTheNextOffset;
    let (start, end) = (entry(tile), if last { case.size } else { entry(tile + 1) });
    (start, end.max(start))
}

fn named(case: &Case) -> Vec<u64> {
    let below: Vec<u64> = case.run.iter().map(|i| u64::from(*i)).filter(|i| *i < case.tiles).collect();
    BTreeSet::from_iter(below).into_iter().collect()
}

/// Start and end of each range.
fn ranges(case: &Case, slip: Slip) -> Vec<(u64, u64)> {
    let tiles = match slip {
        Slip::InTheRunsOrder => case.run.iter().map(|i| u64::from(*i)).filter(|i| *i < case.tiles).collect(),
        _ => named(case),
    };
    let mut made: Vec<(u64, u64)> = vec![];
    for (start, end) in tiles.into_iter().map(|tile| tile_bytes(case, tile, slip)) {
        if start == end && slip != Slip::EmptyJoins {
            continue;
        }
        match made.last_mut() {
            Some(last) if joined(start.saturating_sub(last.1), case.gap, slip) => last.1 = end,
            _ => made.push((start, end)),
        }
    }
    made
}

fn joined(between: u64, gap: u64, slip: Slip) -> bool {
    between < gap || (between == gap && slip != Slip::BelowTheGap)
}

fn lengths(ranges: &[(u64, u64)]) -> Vec<u64> {
    ranges.iter().map(|(start, end)| end.saturating_sub(*start)).collect()
}

/// The answer and the output run, after the checks of the list, if there are any.
fn plan(case: &Case, checked: Answer<()>, slip: Slip) -> Vec<u64> {
    let needed = if slip == Slip::WorkRoundedDown { case.tiles / 8 } else { case.tiles.div_ceil(8) };
    let checked = checked.and_then(|_| if (case.work as u64) < needed { refuse(refusal::WORK, 0) } else { Ok(()) });
    let mut out: Vec<u64> = (0..case.room as u64).map(|i| BEFORE + i).collect();
    if let Err(refused) = checked {
        return [vec![refused.number, refused.place, 0, 0, 0, 0], out].concat();
    }
    let (made, tiles) = (ranges(case, slip), named(case));
    let all: Vec<u64> = made.iter().zip(lengths(&made)).flat_map(|((start, _), length)| [*start, length]).collect();
    let fits = if slip == Slip::HalfARange { case.room } else { case.room / 2 * 2 }.min(all.len());
    out[..fits].copy_from_slice(&all[..fits]);
    let mut outside: Vec<u32> = case.run.iter().copied().filter(|i| u64::from(*i) >= case.tiles).collect();
    if slip == Slip::OutsideOnce {
        outside.dedup();
    }
    let own = tiles.iter().map(|tile| tile_bytes(case, *tile, slip)).collect::<Vec<_>>();
    let counted = if slip == Slip::BytesWithoutGaps { lengths(&own) } else { lengths(&made) };
    let different = if slip == Slip::RepeatsCounted { case.run.len() - outside.len() } else { tiles.len() };
    let bytes = counted.into_iter().fold(0, u64::wrapping_add);
    [vec![0, 0, made.len() as u64, different as u64, outside.len() as u64, bytes], out].concat()
}

/// What is written of a run, so many numbers an entry, as many whole ones as fit.
fn of_run<const N: usize>(case: &Case, told: impl Fn(u64) -> [u64; N]) -> Vec<u64> {
    let all: Vec<[u64; N]> = case.run.iter().take(case.room / N).map(|tile| told(u64::from(*tile))).collect();
    let rest = (N * all.len()..case.room).map(|i| BEFORE + i as u64);
    all.concat().into_iter().chain(rest).collect()
}

fn right(case: &Case, slip: Slip) -> Vec<Vec<u64>> {
    let check = if case.var { rules::var_offsets } else { rules::offsets };
    let extent = |tile| {
        let (start, end) = if tile < case.tiles { tile_bytes(case, tile, Slip::None) } else { (0, 0) };
        [start, end - start]
    };
    let cells = |tile| match tile + 1 {
        next if next < case.tiles => [case.capacity],
        next => [if next == case.tiles { case.last_cells } else { 0 }],
    };
    vec![
        plan(case, check(case.tiles, case.size, &case.list).map(|_| ()), slip),
        plan(case, Ok(()), slip),
        of_run(case, extent),
        of_run(case, cells),
    ]
}

/// The ranges of an accepted list, byte by byte: those of the named tiles, then gaps of at most g bytes between two of
/// them, then whatever lies together.
fn by_bytes(case: &Case) -> Vec<u64> {
    let mut read = vec![false; case.size as usize];
    for tile in case.run.iter().map(|tile| u64::from(*tile)).filter(|tile| *tile < case.tiles) {
        let (start, end) = tile_bytes(case, tile, Slip::None);
        read[start as usize..end as usize].fill(true);
    }
    let own: Vec<usize> = (0..read.len()).filter(|at| read[*at]).collect();
    for pair in own.windows(2).filter(|pair| (pair[1] - pair[0] - 1) as u64 <= case.gap) {
        read[pair[0]..pair[1]].fill(true);
    }
    let first = |at: &usize| read[*at] && (*at == 0 || !read[*at - 1]);
    let length = |at: usize| read[at..].iter().take_while(|byte| **byte).count();
    (0..read.len()).filter(first).flat_map(|at| [at as u64, length(at) as u64]).collect()
}

// ---- the library

/// What a call leaves in the output run: list, run, work buffer and output run are lent, between guard pages where there
/// is a space for them.
fn lend(
    case: &Case,
    space: &mut Option<&mut Space>,
    call: impl FnOnce((*const u8, usize), (*const u32, usize), (*mut u8, usize), (*mut u64, usize)),
) -> Vec<u64> {
    let mut out: Vec<u64> = (0..case.room as u64).map(|i| BEFORE + i).collect();
    let (mut list, mut run, mut work) = (case.list.clone(), case.run.clone(), vec![case.held; case.work]);
    let (list, run) = ((list.as_mut_ptr(), list.len()), (run.as_mut_ptr(), run.len()));
    let Some(space) = space else {
        call((list.0, list.1), (run.0, run.1), (work.as_mut_ptr(), work.len()), (out.as_mut_ptr(), out.len()));
        return out;
    };
    space.again();
    unsafe {
        let copy = |place: *mut u8, from: *const u8, bytes| std::ptr::copy_nonoverlapping(from, place, bytes);
        let places = [list.1, 4 * run.1, work.len(), 8 * out.len()].map(|bytes| space.lend(bytes));
        copy(places[0], list.0, list.1);
        copy(places[1], run.0.cast(), 4 * run.1);
        copy(places[2], work.as_ptr(), work.len());
        copy(places[3], out.as_ptr().cast(), 8 * out.len());
        call((places[0], list.1), (places[1].cast(), run.1), (places[2], work.len()), (places[3].cast(), out.len()));
        std::slice::from_raw_parts(places[3].cast(), out.len()).to_vec()
    }
}

fn ask_plan(case: &Case, space: &mut Option<&mut Space>, function: Plan) -> Vec<u64> {
    let mut answer = vec![u64::MAX; 6];
    let out = lend(case, space, |l, r, w, o| unsafe {
        function(case.tiles, case.size, l.0, l.1, case.gap, r.0, r.1, w.0, w.1, o.0, o.1, answer.as_mut_ptr())
    });
    [answer, out].concat()
}

fn ask(case: &Case, mut space: Option<&mut Space>) -> Vec<Vec<u64>> {
    let checked = if case.var { tussockbell_var_read_plan } else { tussockbell_read_plan };
    vec![
        ask_plan(case, &mut space, checked),
        ask_plan(case, &mut space, tussockbell_read_plan_at),
        lend(case, &mut space, |l, r, _, o| unsafe {
            tussockbell_run_extents_at(case.tiles, case.size, l.0, l.1, r.0, r.1, o.0, o.1)
        }),
        lend(case, &mut space, |_, r, _, o| unsafe {
            tussockbell_run_cells_at(case.tiles, case.last_cells, case.capacity, r.0, r.1, o.0, o.1)
        }),
    ]
}

// ---- generated inputs

/// A list of either kind and the size of its file. Of a var list many tiles have no bytes.
fn list(c: &mut Chance, var: bool, n: u64) -> (u64, Vec<u64>) {
    let (most, mut next) = (c.of(&[2, 4, 20]), 0u64);
    let mut entries = vec![];
    for _ in 0..n {
        entries.push(next);
        let step = if c.one_in(2_000) { c.of(&[1 << 40, 1 << 62]) } else { c.below(most) };
        next = next.saturating_add(step + u64::from(!var));
    }
    (next, entries)
}

/// Now and then an entry that breaks the rule, another size, another count, bytes too few or too many.
fn faulty(c: &mut Chance, size: &mut u64, entries: &mut [u64], n: u64) -> Vec<u8> {
    let at = c.below(n) as usize;
    let mut count = n;
    match c.below(40) {
        0 => entries[at] = c.of(&[0, 1, u64::MAX, 1 << 63]),
        1 => entries[at] = entries[at].wrapping_sub(1),
        2 => *size = c.of(&[0, *size + 1, size.wrapping_sub(1), u64::MAX]),
        3 => count = c.of(&[0, n + 1, n - 1, u64::MAX]),
        _ => (),
    }
    let mut list: Vec<u8> = [&[count], &entries[..]].concat().iter().flat_map(|x| x.to_le_bytes()).collect();
    match c.below(60) {
        0 => list.truncate(c.below(list.len() as u64) as usize),
        1 => list.push(0),
        _ => (),
    }
    list
}

fn some_run(c: &mut Chance, n: u64) -> Vec<u32> {
    let most = c.of(&[1, 3, 8, 20, 40]);
    let mut run: Vec<u32> = (0..c.below(most)).map(|_| c.below(n) as u32).collect();
    if c.one_in(15) {
        run.extend(0..n as u32);
    }
    if c.one_in(4) && !run.is_empty() {
        let again = run[c.below(run.len() as u64) as usize];
        run.push(again);
    }
    for _ in 0..if c.one_in(6) { 1 + c.below(3) } else { 0 } {
        let at = c.below(run.len() as u64 + 1) as usize;
        run.insert(at, c.of(&[n as u32, n as u32 + 1, u32::MAX, 1 << 31]));
    }
    run
}

/// A gap that lies at an edge: as many bytes as there are between two tiles, or one more or less.
fn some_gap(c: &mut Chance, entries: &[u64]) -> u64 {
    let at = c.below(entries.len() as u64) as usize;
    let other = (at + c.below(5) as usize).min(entries.len() - 1);
    let between = entries[other] - entries[at];
    c.of(&[0, 0, 0, 1, 2, between, between + 1, between.saturating_sub(1), u64::MAX])
}

fn make(c: &mut Chance) -> Case {
    let n = if c.one_in(40) { 1 + c.below(2_000) } else { c.of(&[1, 2, 8, 9, 16, 17, 33, 64, 65, 100, 256, 700]) };
    let var = c.one_in(2);
    let (mut size, mut entries) = list(c, var, n);
    let gap = some_gap(c, &entries);
    let list = faulty(c, &mut size, &mut entries, n);
    let tiles = if c.one_in(50) { c.of(&[0, n + 1, n - 1, limits::TILES.end() + 1, u64::MAX]) } else { n };
    let needed = n.div_ceil(8) as usize;
    let work = if c.one_in(20) { c.of(&[0, needed - 1, n as usize / 8]) } else { needed + c.of(&[0, 0, 1, 9]) };
    let run = some_run(c, n);
    let room = c.of(&[0, 1, 2, 3, 5, 2 * run.len(), 2 * run.len() + 1, 2 * run.len() + 5]);
    let (held, last_cells, capacity) = (c.next() as u8, 1 + c.below(9), 9 + c.below(3));
    // A list made for one rule is asked by the other one too.
    Case { var: var != c.one_in(12), tiles, size, list, gap, run, work, held, room, last_cells, capacity }
}

// ---- the comparison

/// The slips of the rules, as a library that makes them would answer: each must be told from what is right.
fn slips(seed: u64) {
    let all = [
        ("a neighbour at exactly g bytes not merged", Slip::BelowTheGap),
        ("the last tile's end as the next offset", Slip::LastToTheNextOffset),
        ("a repeated tile counted twice", Slip::RepeatsCounted),
        ("a tile without bytes that joins two others", Slip::EmptyJoins),
        ("half a range at the end of the run", Slip::HalfARange),
        ("tiles in the run's order", Slip::InTheRunsOrder),
        ("the work buffer's bytes rounded down", Slip::WorkRoundedDown),
        ("bytes without the gaps", Slip::BytesWithoutGaps),
        ("numbers outside counted once", Slip::OutsideOnce),
    ];
    for (name, slip) in all {
        let caught = (0..100_000).any(|i| {
            let case = make(&mut Chance::new(seed, i));
            right(&case, slip)[0] != right(&case, Slip::None)[0]
        });
        assert!(caught, "the slip was not caught: {name}");
    }
    println!("differential: {} slips of read plans are caught", all.len());
}

/// Whether a small file's ranges are what its bytes say.
fn small(case: &Case, said: &[u64]) -> bool {
    if said[0] != 0 || case.size > 4_000 {
        return false;
    }
    let (right, out) = (by_bytes(case), &said[6..]);
    let fits = right.len().min(out.len() / 2 * 2);
    assert_eq!((said[2], &out[..fits]), (right.len() as u64 / 2, &right[..fits]), "other bytes are read: {case:?}");
    assert_eq!(said[5], right.chunks(2).map(|range| range[1]).sum::<u64>(), "bytes are counted otherwise: {case:?}");
    true
}

/// Every third tile of a list of many, from the last one down, and two tiles more: apart, joined, and all in one range.
pub fn many(n: u64) {
    let list: Vec<u8> = [n].into_iter().chain((0..n).map(|i| 10 * i)).flat_map(u64::to_le_bytes).collect();
    let run: Vec<u32> = (0..n as u32).rev().step_by(3).chain([0, n as u32]).collect();
    let (work, room) = (n.div_ceil(8) as usize, 2 * run.len());
    for gap in [0, 19, 20] {
        let (list, run, size) = (list.clone(), run.clone(), 10 * n);
        let case =
            Case { var: false, tiles: n, size, list, gap, run, work, held: 255, room, last_cells: 3, capacity: 9 };
        assert!(ask(&case, None) == right(&case, Slip::None), "a plan of {n} tiles differs, gap {gap}");
    }
}

pub fn compare(inputs: u64, seed: u64) {
    slips(seed);
    let (mut refusals, mut space) = (BTreeMap::new(), Space::new());
    let (mut guarded, mut by_bytes, mut several) = (0, 0, 0);
    for i in 0..inputs {
        let case = make(&mut Chance::new(seed, i));
        let guards = i % 8 == 0;
        let (right, said) = (right(&case, Slip::None), ask(&case, if guards { Some(&mut space) } else { None }));
        if right != said {
            eprintln!("differential: read plan {i} of seed {seed} differs\n{case:?}");
            eprintln!("the rules: {right:x?}\nthe library: {said:x?}");
            std::process::exit(1);
        }
        *refusals.entry(said[0][0]).or_insert(0u64) += 1;
        guarded += u64::from(guards);
        by_bytes += u64::from(small(&case, &said[0]));
        several += u64::from(said[0][2] > 1);
    }
    if inputs >= 100_000 {
        use refusal::{BYTES, COUNT, TILES, TILE_OFFSETS, WORK};
        for number in [0, BYTES, TILES, COUNT, TILE_OFFSETS, WORK] {
            assert!(refusals.contains_key(&number), "no read plan was answered with {number}");
        }
        assert!(by_bytes > inputs / 2 && several > inputs / 4, "too few plans: {by_bytes} by bytes, {several} of several ranges");
    }
    println!("differential: {inputs} read plans agree, {guarded} between guard pages, {by_bytes} byte by byte;");
    println!("    refusals {refusals:?}");
}
