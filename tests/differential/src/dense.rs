//! Dense fragments: the library, through its C functions, against the rules (`grid`), on generated grids and windows,
//! small ones cell by cell, large ones tile by tile; and on dense footers, damaged ones too. Every number of every
//! answer and every place of every buffer is compared.

use crate::cases::{self, Chance};
use crate::grid::{self, Grid, COLUMN_MAJOR, ROW_MAJOR};
use crate::guard::Space;
use crate::library::lend;
use crate::replay::{bytes_of, ends_of, kinds};
use crate::right::{footer_places, right as sparse_right, FOOTER_PLACES};
use crate::rules::{self, limits, refusal, Description, FLOAT32, FLOAT64, INT32, INT64, UINT64};
use std::collections::BTreeMap;

extern "C" {
    fn tussockbell_dense_check(
        k: *const u8, kl: usize, fields: u64, capacity: u64, dk: *const u8, dkl: usize, de: *const u8, del: usize,
        e: *const u64, el: usize, order: u64, answer: *mut u64,
    );
    fn tussockbell_dense_query(
        k: *const u8, kl: usize, fields: u64, capacity: u64, dk: *const u8, dkl: usize, de: *const u8, del: usize,
        e: *const u64, el: usize, order: u64, wk: *const u8, wkl: usize, we: *const u8, wel: usize, out: *mut u32,
        ol: usize, answer: *mut u64,
    );
    fn tussockbell_dense_footer(
        k: *const u8, kl: usize, fields: u64, capacity: u64, file: u64, f: *const u8, fl: usize, answer: *mut u64,
    );
    fn tussockbell_dense_schema_name(
        k: *const u8, kl: usize, fields: u64, capacity: u64, file: u64, f: *const u8, fl: usize, answer: *mut u64,
    );
}

/// As many places of a buffer as fit between the guard pages.
const GUARDED_ROOM: usize = 65_536;

#[derive(Clone, Debug)]
struct Case {
    grid: Grid,
    kinds: Vec<u8>,
    ends: Vec<u8>,
    room: usize,
}

// ---- cases

/// The ends of a domain, in whole numbers; those of a float kind are of no account.
type Sides = Vec<(i128, i128)>;

fn limits_of(kind: u8) -> (i128, i128) {
    ends_of(kind).unwrap_or((i32::MIN.into(), i32::MAX.into()))
}

/// The bytes of ranges, of which an end is now and then NaN where the kind has it, and of which one may be reversed.
fn ranges(c: &mut Chance, kinds: &[u8], sides: &Sides) -> Vec<u8> {
    let mut data = vec![];
    for (kind, (low, high)) in kinds.iter().zip(sides) {
        let (least, most) = limits_of(*kind);
        let ends = if c.one_in(100) { [*high, *low] } else { [*low, *high] };
        for end in ends {
            let float = [end as f64, f64::NAN, f64::INFINITY][usize::from(c.one_in(6)) * (1 + c.below(2) as usize)];
            match rules::kind(*kind).map(|kind| kind.number) {
                Some(k) if k == FLOAT64.number => data.extend(float.to_le_bytes()),
                Some(k) if k == FLOAT32.number => data.extend((float as f32).to_le_bytes()),
                _ => data.extend(bytes_of(*kind, end.clamp(least, most))),
            }
        }
    }
    data
}

/// A number of cells along a dimension and the cells of a tile: of small grids, or of ones as large as the kind has.
fn split(c: &mut Chance, kind: u8, small: bool) -> (i128, u64) {
    let (least, most) = limits_of(kind);
    let all = most - least + 1;
    if small {
        let extent = 1 + c.below(4) as i128;
        return (extent * (1 + c.below(4) as i128), extent as u64);
    }
    let tiles = 1i128 << if c.one_in(15) { 25 } else { c.of(&[0, 0, 1, 2, 3, 5]) };
    match c.below(5) {
        // The whole domain of the kind, in tiles of one cell, or in few, of which one alone may be too long for a u64.
        4 => (all, 1),
        0 => (all, u64::try_from(all / tiles).unwrap_or(1 << 63)),
        1 => (all - 1, u64::try_from(all - 1).unwrap()),
        2 => (all / tiles / 3 * tiles, u64::try_from(all / tiles / 3).unwrap()),
        _ => (tiles, 1),
    }
}

/// Where a domain of so many cells lies: at an end of the kind, or around the middle.
fn lay(c: &mut Chance, kind: u8, cells: i128) -> (i128, i128) {
    let (least, most) = limits_of(kind);
    let cells = cells.min(most - least + 1);
    let low = match c.below(4) {
        0 => least,
        1 => most - cells + 1,
        _ => (least + (most - least + 1) / 2 - c.below(5) as i128).clamp(least, most - cells + 1),
    };
    (low, low + cells - 1)
}

/// A range that ends on, in or outside the edges of a tile or of the domain.
fn window(c: &mut Chance, kind: u8, (low, high): (i128, i128), extent: u64) -> (i128, i128) {
    let (least, most) = limits_of(kind);
    let mut end = || {
        let edge = low + i128::from(extent) * (c.below(5) as i128);
        let any = low + i128::from(c.next()) % (high - low + 1);
        c.of(&[low - 1, low, high, high + 1, edge, edge - 1, edge + 1, any, any, least, most]).clamp(least, most)
    };
    let (first, second) = (end(), end());
    match c.below(10) {
        0 => (first, first),
        1 => (low, high),
        _ => (first.min(second), first.max(second)),
    }
}

/// Kinds that are the description's, or nearly.
fn near(c: &mut Chance, kinds: &[u8]) -> Vec<u8> {
    let mut other = kinds.to_vec();
    match c.below(80) {
        0 => other.push(INT32.number),
        1 => _ = other.pop(),
        2 if !other.is_empty() => {
            let at = c.below(other.len() as u64) as usize;
            other[at] = c.of(&[INT32.number, INT64.number, UINT64.number, FLOAT64.number, 4]);
        }
        _ => (),
    }
    other
}

/// Extents that are faulty in one place, or are too few or too many.
fn spoil(c: &mut Chance, extents: &mut Vec<u64>, sides: &Sides) {
    let at = c.below(extents.len().max(1) as u64) as usize;
    match c.below(12) {
        0 if !extents.is_empty() => {
            let cells = u64::try_from(sides[at].1 - sides[at].0 + 1).unwrap_or(0);
            let near = [cells.wrapping_add(1), cells.saturating_sub(1), 2 * (cells / 2 + 1)];
            extents[at] = c.of(&[0, 1, 2, cells, near[0], near[1], near[2], 1 << 63, u64::MAX]);
        }
        1 => extents.truncate(at),
        2 => extents.push(c.of(&[0, 1, u64::MAX])),
        _ => (),
    }
}

fn make(c: &mut Chance) -> Case {
    let own = kinds(c);
    let small = c.below(5) > 0;
    let splits: Vec<(i128, u64)> = own.iter().map(|kind| split(c, *kind, small)).collect();
    let sides: Sides = own.iter().zip(&splits).map(|(kind, (cells, _))| lay(c, *kind, *cells)).collect();
    let mut extents: Vec<u64> = splits.iter().map(|(_, extent)| *extent).collect();
    spoil(c, &mut extents, &sides);
    let asked: Sides = (0..own.len()).map(|i| window(c, own[i], sides[i], splits[i].1)).collect();
    let most = *limits::FIELDS.end();
    let d = Description {
        fields: if c.one_in(80) { c.of(&[0, most + 1]) } else { 1 + c.below(most) },
        capacity: if c.one_in(80) { c.of(&[0, limits::CAPACITY.end() + 1]) } else { 1 + c.below(9) },
        kinds: own.clone(),
    };
    let order = if c.one_in(60) { c.of(&[2, 3, 1 << 32, u64::MAX]) } else { c.below(2) };
    let (domain_kinds, kinds) = (near(c, &own), near(c, &own));
    let domain_ends = ranges(c, &domain_kinds, &sides);
    let mut ends = ranges(c, &kinds, &asked);
    if c.one_in(100) {
        ends.truncate(c.below(ends.len() as u64 + 1) as usize);
    }
    let grid = Grid { d, kinds: domain_kinds, ends: domain_ends, extents, order };
    let found = grid::query(&grid, &kinds, &ends).map_or(3, |found| found.len());
    let any = c.below(found as u64 + 1) as usize;
    let room = c.of(&[0, found, found, found + 2, found.saturating_sub(1), any]);
    Case { grid, kinds, ends, room }
}

// ---- the rules and the library

/// Number and place of the check, those of the query and the number found; and the buffer.
type Said = (Vec<u64>, Vec<u32>);

fn before(room: usize) -> Vec<u32> {
    (0..room as u32).map(|i| 0xdead_0000 + i).collect()
}

fn right(case: &Case) -> Said {
    let mut answer = grid::check(&case.grid).map_or_else(|refused| vec![refused.number, refused.place], |_| vec![0, 0]);
    let mut out = before(case.room);
    match grid::query(&case.grid, &case.kinds, &case.ends) {
        Ok(found) => {
            let fits = found.len().min(out.len());
            out[..fits].copy_from_slice(&found[..fits]);
            answer.extend([0, 0, found.len() as u64]);
        }
        Err(refused) => answer.extend([refused.number, refused.place, 0]),
    }
    (answer, out)
}

fn ask(case: &Case, mut space: Option<&mut Space>) -> Said {
    if let Some(space) = &mut space {
        space.again();
    }
    let Case { grid, kinds, ends, room } = case;
    let d = &grid.d;
    let (k, dk, de) = (lend(&d.kinds, &mut space), lend(&grid.kinds, &mut space), lend(&grid.ends, &mut space));
    let (wk, we) = (lend(kinds, &mut space), lend(ends, &mut space));
    let mut own = before(*room);
    let (e, out) = if space.is_some() {
        let extents: Vec<u8> = grid.extents.iter().flat_map(|x| x.to_ne_bytes()).collect();
        let places: Vec<u8> = own.iter().flat_map(|x| x.to_ne_bytes()).collect();
        (lend(&extents, &mut space) as *const u64, lend(&places, &mut space) as *mut u32)
    } else {
        (grid.extents.as_ptr(), own.as_mut_ptr())
    };
    let mut answer = vec![u64::MAX; 5];
    let (kl, dkl, del, el) = (d.kinds.len(), grid.kinds.len(), grid.ends.len(), grid.extents.len());
    unsafe {
        tussockbell_dense_check(k, kl, d.fields, d.capacity, dk, dkl, de, del, e, el, grid.order, answer.as_mut_ptr());
        tussockbell_dense_query(
            k, kl, d.fields, d.capacity, dk, dkl, de, del, e, el, grid.order, wk, kinds.len(), we, ends.len(), out,
            *room, answer[2..].as_mut_ptr(),
        );
        (answer, std::slice::from_raw_parts(out, *room).to_vec())
    }
}

fn same(case: &Case, space: Option<&mut Space>, made: u64) -> Vec<u64> {
    let (right, said) = (right(case), ask(case, space));
    if right != said {
        let shown = |(answer, out): &Said| format!("{answer:?} {:x?}", &out[..out.len().min(40)]);
        eprintln!("dense: grid {made} differs\n{case:?}\nthe rules: {}\nthe library: {}", shown(&right), shown(&said));
        std::process::exit(1);
    }
    right.0
}

// ---- slips

#[derive(Clone, Copy)]
enum Slip {
    OrdersExchanged,
    UpperEdgeLost,
    FromZero,
}

/// What a library with this slip would find.
fn wrong(case: &Case, slip: Slip) -> Option<Vec<u32>> {
    let mut sides = grid::check(&case.grid).ok()?;
    let mut window = grid::numbers(rules::checked_window(&case.grid.d, &case.kinds, &case.ends).ok()?);
    let mut order = case.grid.order;
    match slip {
        Slip::OrdersExchanged => order = ROW_MAJOR + COLUMN_MAJOR - order,
        Slip::UpperEdgeLost => window.iter_mut().for_each(|range| range.1 -= 1),
        Slip::FromZero => sides.iter_mut().for_each(|side| side.least = 0),
    }
    Some(grid::by_tiles(&sides, &window, order))
}

/// Each slip is told from what is right.
fn slips(seed: u64) -> usize {
    let all = [Slip::OrdersExchanged, Slip::UpperEdgeLost, Slip::FromZero];
    for (number, slip) in all.iter().enumerate() {
        let told = |i: u64| {
            let case = make(&mut Chance::new(seed, i));
            wrong(&case, *slip).is_some_and(|found| Ok(found) != grid::query(&case.grid, &case.kinds, &case.ends))
        };
        assert!((0..10_000).any(told), "slip {number} of a grid was not caught");
    }
    all.len()
}

// ---- grids of the most tiles

/// Grids of 16,777,216 tiles, of one more, and of one row more, in both orders, with windows as wide as the domain and
/// in its middle.
fn most_tiles() -> u64 {
    let most = *limits::TILES.end() as i128;
    let mut compared = 0;
    let just = [vec![most], vec![4_096; 2], vec![256; 3], vec![64; 4], vec![1, most]];
    for along in just.into_iter().chain([vec![most + 1], vec![4_096, 4_097], vec![most, 2]]) {
        for (order, kind) in [(ROW_MAJOR, INT32), (COLUMN_MAJOR, UINT64)] {
            let kinds = vec![kind.number; along.len()];
            let low = ends_of(kind.number).unwrap().0;
            let bytes = |from: &dyn Fn(i128) -> (i128, i128)| -> Vec<u8> {
                let ends = along.iter().flat_map(|cells| <[i128; 2]>::from(from(*cells)));
                ends.flat_map(|end| bytes_of(kind.number, end)).collect()
            };
            let d = Description { kinds: kinds.clone(), fields: 1, capacity: 1 };
            let ends = bytes(&|cells| (low, low + 3 * cells - 1));
            let grid = Grid { d, kinds: kinds.clone(), ends: ends.clone(), extents: vec![3; along.len()], order };
            let middle = bytes(&|cells| (low + cells, low + cells + 4));
            for (ends, room) in [(ends.clone(), 0), (ends.clone(), 1_000), (ends, most as usize), (middle, 100)] {
                same(&Case { grid: grid.clone(), kinds: kinds.clone(), ends, room }, None, compared);
                compared += 1;
            }
        }
    }
    compared
}

// ---- footers

#[derive(Debug)]
struct Foot {
    d: Description,
    file_size: u64,
    data: Vec<u8>,
}

/// A footer of the sparse entry's tests, with the flag and the tiles of a dense one mostly.
fn foot(c: &mut Chance) -> Foot {
    let mut kinds = kinds(c);
    kinds.truncate(4);
    if kinds.is_empty() {
        kinds.push(INT64.number);
    }
    let known = kinds.iter().map(|k| cases::known(*k)).collect();
    let sound = Description { kinds: known, fields: 1 + c.below(3), capacity: 10 };
    let tiles = if c.one_in(20) { c.of(&[1, 2, limits::TILES.end() + 1, u64::MAX]) } else { 0 };
    let domain = kinds.iter().map(|_| c.below(50) as i64).map(|low| (low, low + 9)).collect();
    let made = cases::footer(c, &sound, tiles, &domain);
    let mut data = made.data;
    // A name size at fault leaves the other fields where they are.
    let flag = data.len() - 52 - sound.box_bytes() - 88 * sound.fields as usize;
    if data[flag] == 0 && !c.one_in(20) {
        data[flag] = 1;
    }
    let last_cells = flag + 2 + sound.box_bytes() + 8;
    if c.one_in(2) {
        let any = c.of(&[0, 1, 11, u64::MAX]);
        data[last_cells..last_cells + 8].copy_from_slice(&any.to_le_bytes());
    }
    let fields = if c.one_in(60) { c.of(&[0, 65]) } else { sound.fields };
    Foot { d: Description { kinds, fields, ..sound }, file_size: made.file_size, data }
}

fn ask_footer(foot: &Foot, mut space: Option<&mut Space>) -> Vec<u64> {
    if let Some(space) = &mut space {
        space.again();
    }
    let (d, kl, file, length) = (&foot.d, foot.d.kinds.len(), foot.file_size, foot.data.len());
    let (k, f) = (lend(&d.kinds, &mut space), lend(&foot.data, &mut space));
    let mut answer = vec![u64::MAX; FOOTER_PLACES + 2];
    unsafe {
        tussockbell_dense_footer(k, kl, d.fields, d.capacity, file, f, length, answer.as_mut_ptr());
        let name = answer[FOOTER_PLACES..].as_mut_ptr();
        tussockbell_dense_schema_name(k, kl, d.fields, d.capacity, file, f, length, name);
    }
    answer
}

/// The dense entry says what the rules say; a footer that it accepts is refused by the sparse one, which then counts no
/// cells.
fn same_footer(foot: &Foot, space: Option<&mut Space>, made: u64) -> u64 {
    let read = grid::footer(&foot.d, foot.file_size, &foot.data);
    let (right, said) = (footer_places(&foot.d, &foot.data, &read), ask_footer(foot, space));
    if right != said {
        eprintln!("dense: footer {made} differs\n{foot:?}\nthe rules: {right:x?}\nthe library: {said:x?}");
        std::process::exit(1);
    }
    if let Ok(f) = &read {
        let (d, file_size, footer) = (foot.d.clone(), foot.file_size, foot.data.clone());
        let case = cases::Case::Footer { d, file_size, footer, tile: 0 };
        let sparse = crate::library::ask(&case, None).0;
        assert_eq!(sparse, sparse_right(&case).0, "the sparse entry reads a dense footer otherwise");
        assert_eq!(sparse[..2], [refusal::DENSE, 12 + f.name.1 as u64], "a footer is accepted by both entries");
        assert!(sparse[FOOTER_PLACES..].iter().all(|number| *number == 0), "a dense footer has cells");
    }
    right[0]
}

/// A footer with each byte changed, and cut at each length.
fn damaged(foot: &mut Foot, made: u64, refusals: &mut BTreeMap<u64, u64>) {
    let whole = foot.data.clone();
    for at in 0..whole.len() {
        for change in [1u8, 128, 255] {
            foot.data[at] ^= change;
            *refusals.entry(same_footer(foot, None, made)).or_insert(0) += 1;
            foot.data[at] ^= change;
        }
        foot.data.truncate(at);
        *refusals.entry(same_footer(foot, None, made)).or_insert(0) += 1;
        foot.data = whole.clone();
    }
}

fn footers(inputs: u64, seed: u64, space: &mut Space) -> BTreeMap<u64, u64> {
    let mut refusals = BTreeMap::new();
    for i in 0..inputs {
        let mut foot = foot(&mut Chance::new(seed, i));
        let guards = i % 20 == 0;
        *refusals.entry(same_footer(&foot, guards.then_some(space), i)).or_insert(0) += 1;
        if i % 1_000 == 0 {
            damaged(&mut foot, i, &mut refusals);
        }
    }
    let rest = [refusal::REVERSED, refusal::TILES, refusal::OFFSET, refusal::RETIRED, refusal::GRID];
    let all = (0..=refusal::NULL_DOMAIN).chain(rest);
    let missing: Vec<u64> = all.filter(|number| !refusals.contains_key(number)).collect();
    assert!(inputs < 20_000 || missing.is_empty(), "no dense footer was refused with {missing:?}");
    assert!(!refusals.contains_key(&refusal::LAST_CELLS), "the last tile's cells were looked at");
    refusals
}

pub fn compare(inputs: u64, seed: u64) {
    let (mut space, mut guarded, mut rooms) = (Space::new(), 0, 0u64);
    let (mut refusals, mut of_the_window): (BTreeMap<u64, u64>, u64) = Default::default();
    let slips = slips(seed);
    for i in 0..inputs {
        let mut case = make(&mut Chance::new(seed, i));
        let guards = i % 20 == 0 && case.room <= GUARDED_ROOM;
        let said = same(&case, guards.then_some(&mut space), i);
        guarded += u64::from(guards);
        *refusals.entry(said[2]).or_insert(0) += 1;
        of_the_window += u64::from(said[0] == 0 && said[2] != 0);
        if i % 500 == 0 {
            for room in 0..(said[4] as usize).min(300) + 3 {
                case.room = room;
                same(&case, None, i);
                rooms += 1;
            }
        }
    }
    let front = [0, refusal::DESCRIPTION, refusal::RETIRED, refusal::WINDOW, refusal::NOT_A_NUMBER, refusal::REVERSED];
    let reached = front.iter().chain(&[refusal::GRID, refusal::TILES]).all(|number| refusals.contains_key(number));
    assert!(inputs < 20_000 || (reached && of_the_window > 100), "{refusals:?} {of_the_window}");
    let (footers, most) = (footers(inputs / 4, seed, &mut space), most_tiles());
    println!(
        "differential: {inputs} grids agree, and {rooms} more at every room, {guarded} of them between guard pages, \
         {most} of about 16,777,216 tiles; refusals {refusals:?}, of the window {of_the_window}; {slips} slips are \
         caught; dense footers {footers:?}"
    );
}
