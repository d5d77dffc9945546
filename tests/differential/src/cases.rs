//! Inputs, made from a seed and a number.

use crate::rules::{self, limits, Description, FLOAT32, FLOAT64, INT32, INT64, KINDS, UINT64};

#[derive(Clone, Debug)]
pub enum Case {
    Footer { d: Description, file_size: u64, footer: Vec<u8>, tile: u64 },
    Open { d: Description, file_size: u64, footer: Vec<u8>, tree: Vec<u8> },
    Query { d: Description, tiles: u64, tree: Vec<u8>, kinds: Vec<u8>, ends: Vec<u8>, room: usize },
    Batch { d: Description, tiles: u64, tree: Vec<u8>, kinds: Vec<u8>, windows: Vec<u8>, places: usize, room: usize },
    BoxTest { d: Description, stored: Vec<u8>, kinds: Vec<u8>, ends: Vec<u8> },
    Offsets { var: bool, tiles: u64, size: u64, list: Vec<u8>, tile: u64 },
    Sizes { tiles: u64, list: Vec<u8> },
    Write { d: Description, tiles: u64, fanout: u64, leaves: Vec<u8>, room: usize },
    Report { description: Vec<u8>, footer: Vec<u8>, tree: Vec<u8>, offsets: Vec<u8>, room: usize },
}

/// Numbers from a seed (SplitMix64).
pub struct Chance(u64);

impl Chance {
    pub fn new(seed: u64, input: u64) -> Chance {
        let mut c = Chance(seed ^ input.wrapping_mul(0x9e37_79b9_7f4a_7c15));
        c.next();
        c
    }

    pub fn next(&mut self) -> u64 {
        self.0 = self.0.wrapping_add(0x9e37_79b9_7f4a_7c15);
        let mut z = self.0;
        z = (z ^ (z >> 30)).wrapping_mul(0xbf58_476d_1ce4_e5b9);
        z = (z ^ (z >> 27)).wrapping_mul(0x94d0_49bb_1331_11eb);
        z ^ (z >> 31)
    }

    pub fn below(&mut self, n: u64) -> u64 {
        self.next() % n
    }

    pub fn one_in(&mut self, n: u64) -> bool {
        self.below(n) == 0
    }

    pub fn of<T: Copy>(&mut self, all: &[T]) -> T {
        all[self.below(all.len() as u64) as usize]
    }
}

/// Edges of float32: zeros, infinities, the least and the greatest of the numbers below and above the normal ones' least.
pub const SINGLES: [f32; 12] = {
    let (subnormal, greatest) = (f32::from_bits(1), f32::from_bits(0x007f_ffff));
    [
        0.0, -0.0, f32::INFINITY, f32::NEG_INFINITY, subnormal, -subnormal, greatest, -greatest, f32::MIN_POSITIVE, -f32::MIN_POSITIVE, f32::MAX,
        f32::MIN,
    ]
};

/// One end of a range as its bytes: small whole numbers mostly, the kind's own edges now and then. Those of uint64 lie around 2^63.
fn end(c: &mut Chance, kind: u8, x: i64) -> Vec<u8> {
    let edge = c.one_in(60);
    match kind {
        k if k == INT32.number && edge => c.of(&[i32::MIN, i32::MAX, -1, 0]).to_le_bytes().to_vec(),
        k if k == INT32.number => (x as i32).to_le_bytes().to_vec(),
        k if k == INT64.number && edge => c.of(&[i64::MIN, i64::MAX, -1, 0]).to_le_bytes().to_vec(),
        k if k == INT64.number => x.to_le_bytes().to_vec(),
        k if k == FLOAT32.number && edge => c.of(&SINGLES).to_le_bytes().to_vec(),
        k if k == FLOAT32.number => (x as f32 / 2.0).to_le_bytes().to_vec(),
        k if k == FLOAT64.number && edge => c.of(&[0.0f64, -0.0, f64::INFINITY, f64::NEG_INFINITY, 5e-324, -5e-324]).to_le_bytes().to_vec(),
        k if k == FLOAT64.number => (x as f64 / 2.0).to_le_bytes().to_vec(),
        k if k == UINT64.number && edge => c.of(&[0, u64::MAX, 1 << 63, (1 << 63) - 1]).to_le_bytes().to_vec(),
        k if k == UINT64.number => (1u64 << 63).wrapping_add_signed(x).to_le_bytes().to_vec(),
        k => panic!("{k} is no kind"),
    }
}

/// Bytes of NaNs, of a kind that has some.
fn nans(kind: u8) -> Vec<Vec<u8>> {
    match kind {
        k if k == FLOAT32.number => [0x7fc0_0000u32, 0x7f80_0001, 0xffff_ffff].iter().map(|x| x.to_le_bytes().to_vec()).collect(),
        k if k == FLOAT64.number => [0x7ff8_0000_0000_0000u64, 0x7ff0_0000_0000_0001, u64::MAX].iter().map(|x| x.to_le_bytes().to_vec()).collect(),
        _ => vec![],
    }
}

/// Two ends for a float range of a box that starts here: infinite, NaN or neither, in any order.
fn infinite_side(c: &mut Chance, kinds: &[u8], data: &mut [u8], start: usize) {
    let floats: Vec<usize> = (0..kinds.len()).filter(|i| !nans(kinds[*i]).is_empty()).collect();
    if floats.is_empty() {
        return;
    }
    let side = c.of(&floats);
    let mut at = start + kinds[..side].iter().map(|k| rules::width(*k)).sum::<usize>();
    for _ in 0..2 {
        let x = c.of(&[f64::INFINITY, f64::NEG_INFINITY, f64::NAN, 0.5, -0.5]);
        let bytes = if kinds[side] == FLOAT32.number { (x as f32).to_le_bytes().to_vec() } else { x.to_le_bytes().to_vec() };
        data[at..at + bytes.len()].copy_from_slice(&bytes);
        at += bytes.len();
    }
}

/// A kind that a dimension may have.
fn some_kind(c: &mut Chance) -> u8 {
    c.of(&[INT32, INT64, FLOAT64, UINT64]).number
}

/// Numbers that are no kind's: those between the kinds' own, the next two, and the largest.
fn no_kinds() -> Vec<u8> {
    let most = KINDS.iter().map(|kind| kind.number).max().unwrap();
    (0..=most + 2).chain([255]).filter(|number| rules::kind(*number).is_none()).collect()
}

/// The number of a kind, or one of none.
fn any_number(c: &mut Chance) -> u8 {
    let mut numbers: Vec<u8> = KINDS.iter().map(|kind| kind.number).collect();
    numbers.extend(no_kinds());
    c.of(&numbers)
}

/// A kind as it is, and for a number that is none some kind.
pub fn known(number: u8) -> u8 {
    rules::kind(number).unwrap_or(KINDS[usize::from(number) % KINDS.len()]).number
}

fn description(c: &mut Chance) -> Description {
    let most = *limits::DIMENSIONS.end();
    let number = if c.one_in(200) { c.of(&[0, most + 1, 9]) } else { 1 + c.below(most) };
    let mut kinds: Vec<u8> = (0..number).map(|_| some_kind(c)).collect();
    if c.one_in(40) && number > 0 {
        kinds[c.below(number) as usize] = FLOAT32.number;
    }
    if c.one_in(200) && number > 0 {
        kinds[c.below(number) as usize] = c.of(&no_kinds());
    }
    let fields = if c.one_in(200) { c.of(&[0, limits::FIELDS.end() + 1, u64::MAX]) } else { 1 + c.below(3) };
    let most = *limits::CAPACITY.end();
    let capacity = if c.one_in(200) { c.of(&[0, most + 1, u64::MAX]) } else { c.of(&[1, 10, most]) };
    Description { kinds, fields, capacity }
}

/// The description with every kind in its place, to make pieces that would fit it.
fn plain(d: &Description) -> Description {
    let kinds = d.kinds.iter().take(*limits::DIMENSIONS.end() as usize).map(|k| known(*k)).collect::<Vec<_>>();
    let kinds = if kinds.is_empty() { vec![INT32.number] } else { kinds };
    Description { kinds, fields: d.fields.clamp(1, 3), capacity: d.capacity.clamp(1, *limits::CAPACITY.end()) }
}

/// More tiles than a fragment once might have, and as many as it may.
fn many(c: &mut Chance) -> u64 {
    let most = *limits::TILES.end();
    match c.below(4) {
        0 => c.of(&[65_536, 65_537]),
        1 => c.of(&[most - 1, most]),
        _ => 1 + c.below(most),
    }
}

/// The first bytes of a tree of so many tiles, with the right number of levels mostly, and some that are not its counts and boxes.
fn front(c: &mut Chance, n: u64) -> Vec<u8> {
    let f = c.of(&[2u64, 3, 10, 16, 1024]);
    let (mut count, mut levels) = (n, 1u32);
    while count > 1 {
        count = count.div_ceil(f);
        levels += 1;
    }
    let stored = if c.one_in(4) { levels + 1 - 2 * c.below(2) as u32 } else { levels };
    let mut body = [(f as u32).to_le_bytes(), stored.to_le_bytes()].concat();
    body.extend((0..c.below(8)).flat_map(|_| c.of(&[1, 2, n]).to_le_bytes()));
    body
}

pub type Box_ = Vec<(i64, i64)>;

fn bytes(c: &mut Chance, kinds: &[u8], sides: &Box_) -> Vec<u8> {
    let mut data = vec![];
    for (kind, (low, high)) in kinds.iter().zip(sides) {
        data.extend(end(c, *kind, *low));
        data.extend(end(c, *kind, *high));
    }
    data
}

fn around(boxes: &[Box_]) -> Box_ {
    (0..boxes[0].len()).map(|i| (boxes.iter().map(|b| b[i].0).min().unwrap(), boxes.iter().map(|b| b[i].1).max().unwrap())).collect()
}

/// A fanout and a number of tiles: rows and levels that just end or just begin, and others.
fn sizes(c: &mut Chance) -> (u64, u64) {
    if c.one_in(100) {
        // of the level above the leaves as many boxes as a tree in parts takes at once, twice as many, and one more
        let f = c.of(&[2u64, 3]);
        return (f, f * c.of(&[64u64, 65, 128, 129]) - c.below(f));
    }
    let f = c.of(&[2u64, 2, 3, 4, 10, 1024]);
    let n = match c.below(12) {
        0 => 1,
        1 => f.min(40),
        2 => (f + 1).min(41),
        3 => (f * f).min(60),
        4 => (f * f + 1).min(61),
        5 => (f * f * f).min(64),
        6 => (f * f - 1).min(63),
        _ => 1 + c.below(24),
    };
    (f, n)
}

struct Tree {
    body: Vec<u8>,
    tiles: u64,
    root: Box_,
}

fn tree(c: &mut Chance, d: &Description) -> Tree {
    let (f, n) = sizes(c);
    let spread = c.of(&[4u64, 20, 100]);
    let leaves: Vec<Box_> = (0..n)
        .map(|i| {
            (0..d.kinds.len())
                .map(|p| {
                    let low = if p == 0 { 4 * i as i64 - 20 } else { c.below(spread) as i64 - 10 };
                    (low, low + c.below(8) as i64)
                })
                .collect()
        })
        .collect();
    let mut levels = vec![leaves];
    while levels[0].len() > 1 {
        let mut above: Vec<Box_> = levels[0].chunks(f as usize).map(around).collect();
        if c.one_in(4) {
            for side in above.iter_mut().flatten() {
                side.0 -= c.below(3) as i64;
                side.1 += c.below(3) as i64;
            }
            // a parent may be wider than its children need, but not than its own parent, which is worked out from it
        }
        levels.insert(0, above);
    }
    let root = levels[0][0].clone();
    let mut body = (f as u32).to_le_bytes().to_vec();
    body.extend((levels.len() as u32).to_le_bytes());
    let mut boxes = vec![];
    for level in &levels {
        body.extend((level.len() as u64).to_le_bytes());
        for b in level {
            boxes.push(body.len());
            body.extend(bytes(c, &d.kinds, b));
        }
    }
    if c.one_in(8) {
        // the root, a box near it, or any
        let near = c.of(&[1, 3.min(boxes.len()), boxes.len()]);
        let start = boxes[c.below(near as u64) as usize];
        infinite_side(c, &d.kinds, &mut body, start);
    }
    Tree { body, tiles: n, root }
}

/// Flips, cuts, overlong bytes, numbers at their edges, NaN: none, one or several.
fn damage(c: &mut Chance, data: &mut Vec<u8>) {
    let faults = c.of(&[0u64, 0, 0, 1, 1, 2, 4]);
    for _ in 0..faults {
        if data.is_empty() {
            return;
        }
        let at = c.below(data.len() as u64) as usize;
        match c.below(8) {
            0 => data.truncate(at),
            1 => data.push(c.next() as u8),
            2 => data[at] = c.next() as u8,
            3 | 4 => data[at] ^= 1 << c.below(8),
            5 => {
                let patterns: [&[u8]; 4] = [&[0, 0, 192, 127], &[0, 0, 0, 0, 0, 0, 248, 127], &[255; 8], &[0; 8]];
                let pattern = c.of(&patterns);
                let length = pattern.len().min(data.len() - at);
                data[at..at + length].copy_from_slice(&pattern[..length]);
            }
            6 => data[at] = data[at].wrapping_add(1),
            _ => data[at] = data[at].wrapping_sub(1),
        }
    }
}

pub struct Foot {
    pub data: Vec<u8>,
    pub file_size: u64,
}

pub fn footer(c: &mut Chance, d: &Description, tiles: u64, domain: &Box_) -> Foot {
    let size = c.of(&[1usize, 4, 40, 255]);
    let n = d.fields as usize;
    let total = 64 + size + d.box_bytes() + 88 * n;
    let slack = c.of(&[0u64, 1, 1000, 1000, 1000, u64::MAX - 100_000]);
    let bad = |c: &mut Chance| c.one_in(60);
    let mut data = if bad(c) { c.of(&[15u32, 22, u32::MAX]) } else { 16 + c.below(6) as u32 }.to_le_bytes().to_vec();
    data.extend(if bad(c) { c.of(&[0u64, 256, u64::MAX]) } else { size as u64 }.to_le_bytes());
    data.extend((0..size).map(|_| c.next() as u8));
    for _ in 0..2 {
        data.push(if bad(c) { c.of(&[1, 2, 255]) } else { 0 });
    }
    let domain_start = data.len();
    data.extend(bytes(c, &d.kinds, domain));
    if c.one_in(20) {
        infinite_side(c, &d.kinds, &mut data, domain_start);
    }
    data.extend(if bad(c) { c.of(&[0, limits::TILES.end() + 1, u64::MAX]) } else { tiles }.to_le_bytes());
    data.extend(if bad(c) { c.of(&[0u64, d.capacity + 1, u64::MAX]) } else { 1 + c.below(d.capacity) }.to_le_bytes());
    for _ in 0..2 {
        data.push(if bad(c) { 2 } else { c.below(2) as u8 });
    }
    data.extend((0..3 * n).flat_map(|_| c.next().to_le_bytes()));
    for _ in 0..8 * n + 3 {
        let value = if c.one_in(150) { c.of(&[slack, u64::MAX]) } else { c.below(slack.max(1)) };
        data.extend(value.to_le_bytes());
    }
    data.extend(if bad(c) { c.next() } else { total as u64 - 8 }.to_le_bytes());
    let file_size = if c.one_in(80) { c.of(&[0, total as u64 - 1]) } else { (total as u64).saturating_add(slack) };
    Foot { data, file_size }
}

pub fn window(c: &mut Chance, d: &Description) -> (Vec<u8>, Vec<u8>) {
    let mut kinds: Vec<u8> = d.kinds.clone();
    match c.below(60) {
        0 => kinds.push(some_kind(c)),
        1 => {
            kinds.pop();
        }
        2 if !kinds.is_empty() => kinds[0] = any_number(c),
        3 if !kinds.is_empty() => *kinds.last_mut().unwrap() = any_number(c),
        _ => (),
    }
    let mut ends = vec![];
    for kind in &kinds {
        let low = c.below(120) as i64 - 40;
        let high = low + c.of(&[0i64, 0, 3, 20, 100, -1]);
        let k = known(*kind);
        let nans = nans(k);
        for x in [low, high] {
            let bytes = if !nans.is_empty() && c.one_in(60) { nans[c.below(nans.len() as u64) as usize].clone() } else { end(c, k, x) };
            ends.extend(bytes);
        }
    }
    if c.one_in(60) {
        ends.truncate(c.below(ends.len() as u64 + 1) as usize);
    }
    if c.one_in(60) {
        ends.push(1);
    }
    (kinds, ends)
}

/// Few tiles mostly; more than there are entries, or a number outside the limits, now and then.
fn some_tiles(c: &mut Chance) -> u64 {
    match c.below(50) {
        0 => c.of(&[0, limits::TILES.end() + 1, u64::MAX]),
        1 => many(c),
        _ => 1 + c.below(20),
    }
}

/// A batch over a tree: windows of one run of kinds, some of them refused, and room that ends before, at, in the middle of and after what they find.
fn batch(c: &mut Chance, d: Description, tiles: u64, tree: Vec<u8>) -> Case {
    let (kinds, first) = window(c, &d);
    let count = if c.one_in(40) { c.of(&[32, 33, 100]) } else { c.below(6) as usize };
    let width = rules::window_width(&kinds);
    let mut windows = first;
    windows.truncate(width * count);
    while windows.len() < width * count {
        for kind in kinds.iter().take(*limits::DIMENSIONS.end() as usize) {
            let k = rules::kind(*kind).unwrap_or(INT32).number;
            let low = c.below(120) as i64 - 40;
            let high = low + c.of(&[0i64, 3, 20, 100, 100, -1]);
            let nans = nans(k);
            let nan = !nans.is_empty() && c.one_in(30);
            windows.extend(if nan { nans[c.below(nans.len() as u64) as usize].clone() } else { end(c, k, low) });
            windows.extend(end(c, k, high));
        }
    }
    if c.one_in(40) {
        damage(c, &mut windows);
    }
    let places = crate::right::RECORD_PLACES * count;
    let places = if c.one_in(20) { c.of(&[0, 1, places + 1, places.saturating_sub(1), places + 5, places.saturating_sub(5)]) } else { places };
    let mut all = vec![0; 10_000];
    let asked = rules::batch(&d, tiles, &tree, &kinds, &windows, count, &mut all).unwrap_or_default();
    let used: usize = asked.iter().map(|one| one.used).sum();
    let middle = asked.first().map_or(0, |one| one.used) + 1;
    let room = c.of(&[0, used, used, used + 3, used.saturating_sub(1), middle.min(used), used / 2]);
    Case::Batch { d, tiles, tree, kinds, windows, places, room }
}

fn list(c: &mut Chance, sum: bool) -> (u64, u64, Vec<u8>) {
    let n = some_tiles(c);
    let count = n.min(30);
    let mut entries = vec![];
    let mut next = 0u64;
    for i in 0..count {
        let step = if c.one_in(40) { c.of(&[0, u64::MAX, 1 << 63]) } else { 1 + c.below(100) };
        entries.push(if sum { step } else { next });
        if c.one_in(100) && !sum {
            entries[i as usize] = entries[i as usize].wrapping_sub(c.of(&[1, 2]));
        }
        next = next.wrapping_add(step);
    }
    let size = if c.one_in(30) { c.of(&[0, next.wrapping_sub(1), u64::MAX]) } else { next };
    let mut data = if c.one_in(40) { c.below(40) } else { n }.to_le_bytes().to_vec();
    data.extend(entries.iter().flat_map(|x| x.to_le_bytes()));
    damage_list(c, &mut data);
    (n, size, data)
}

/// Var offsets from few numbers, so that many are equal: all of them 0, or at S, which may be 0 or near 2^64. Some have an entry that falls or
/// is S + 1.
fn var_list(c: &mut Chance) -> (u64, u64, Vec<u8>) {
    let n = some_tiles(c);
    let size = c.of(&[0, 1, 300, 300, u64::MAX - 1, u64::MAX]);
    let middle = c.below(size.saturating_add(1).max(1));
    let mut entries: Vec<u64> = (0..n.min(30)).map(|_| c.of(&[0, middle, size, size - size / 3])).collect();
    entries.sort_unstable();
    if let Some(first) = entries.first_mut() {
        *first = 0;
    }
    if !entries.is_empty() && c.one_in(3) {
        let at = c.below(entries.len() as u64) as usize;
        entries[at] = c.of(&[size.wrapping_add(1), entries[at].wrapping_sub(1), middle, u64::MAX]);
    }
    let mut data = if c.one_in(40) { c.below(40) } else { n }.to_le_bytes().to_vec();
    data.extend(entries.iter().flat_map(|x| x.to_le_bytes()));
    damage_list(c, &mut data);
    (n, size, data)
}

fn damage_list(c: &mut Chance, data: &mut Vec<u8>) {
    if c.one_in(8) {
        damage(c, data);
    }
}

/// Four files of a report, and room around what its text needs.
fn report(c: &mut Chance) -> Case {
    let kinds: Vec<u8> = (0..1 + c.below(3)).map(|_| c.of(&[INT32, INT64]).number).collect();
    let d = Description { kinds, fields: 1 + c.below(2), capacity: 1 + c.below(1000) };
    let mut t = tree(c, &d);
    let mut f = footer(c, &d, t.tiles, &t.root.clone());
    let mut starts: Vec<u64> = vec![0];
    while (starts.len() as u64) < t.tiles {
        let last = *starts.last().unwrap();
        starts.push(last + 1 + c.below(1000));
    }
    let size = starts.last().unwrap() + 1 + c.below(50);
    let mut numbers: Vec<i128> = vec![d.kinds.len() as i128];
    numbers.extend(d.kinds.iter().map(|k| if *k == INT32.number { 32 } else { 64 }));
    numbers.extend([d.fields as i128, d.capacity as i128, f.file_size as i128, size as i128]);
    for _ in &d.kinds {
        let low = c.below(100) as i128 - 40;
        numbers.extend([low, low + c.of(&[0, 3, 50, -1])]);
    }
    let mut lines: Vec<Vec<u8>> = numbers.iter().map(|x| x.to_string().into_bytes()).collect();
    if c.one_in(6) {
        let at = c.below(lines.len() as u64) as usize;
        let bad: [&[u8]; 14] = [
            b"", b"+5", b"-0", b"00", b"01", b" 5", b"5\r", b"-", b"x", b"18446744073709551616", b"2147483648", b"-2147483649", b"0", b"65",
        ];
        lines[at] = c.of(&bad).to_vec();
    }
    if c.one_in(20) {
        lines.pop();
    }
    if c.one_in(20) {
        lines.push(b"7".to_vec());
    }
    let mut description = lines.join(&b'\n');
    if !c.one_in(4) {
        description.push(b'\n');
    }
    let mut offsets = t.tiles.to_le_bytes().to_vec();
    offsets.extend(starts.iter().flat_map(|x| x.to_le_bytes()));
    for part in [&mut description, &mut f.data, &mut t.body, &mut offsets] {
        if c.one_in(12) {
            damage(c, part);
        }
        if c.one_in(400) {
            part.resize(c.of(&[65_536, 65_537]), 0);
        }
    }
    let length = rules::report(&description, &f.data, &t.body, &offsets).len();
    let room = c.of(&[0, 1, length - 1, length, length + 1, length + 40]);
    Case::Report { description, footer: f.data, tree: t.body, offsets, room }
}

/// A box around a window that meets it or, in some dimensions, misses it below, above or by a NaN.
fn box_test(c: &mut Chance) -> Case {
    let d = description(c);
    let (kinds, ends) = window(c, &d);
    let mut stored = vec![];
    for kind in plain(&d).kinds {
        let low = c.below(120) as i64 - 40;
        let (low, high) = if c.one_in(3) { (low, low + c.below(30) as i64) } else { (-50 - c.below(9) as i64, 190) };
        let nans = nans(kind);
        for x in [low, high] {
            let bytes = if !nans.is_empty() && c.one_in(20) { nans[c.below(nans.len() as u64) as usize].clone() } else { end(c, kind, x) };
            stored.extend(bytes);
        }
    }
    if c.one_in(20) {
        damage(c, &mut stored);
    }
    Case::BoxTest { d, stored, kinds, ends }
}

/// Leaves to write a tree of: rows and levels that just end or just begin, small numbers mostly, both zeros and NaN now and then; and room
/// around what the body needs.
fn write(c: &mut Chance) -> Case {
    let d = description(c);
    let p = plain(&d);
    let (f, n) = sizes(c);
    let (zeros, spread) = (c.one_in(3), c.of(&[2u64, 6, 100]));
    let mut leaves = vec![];
    for _ in 0..n {
        for kind in &p.kinds {
            let low = c.below(spread) as i64 - spread as i64 / 2;
            let high = low + c.of(&[0i64, 0, 1, 3, 20]);
            for x in [low, high] {
                let float = *kind == FLOAT32.number || *kind == FLOAT64.number;
                let mut bytes = end(c, *kind, if zeros { 0 } else { x });
                if float && zeros && c.one_in(2) {
                    *bytes.last_mut().unwrap() ^= 128;
                }
                leaves.extend(bytes);
            }
        }
    }
    if c.one_in(3) {
        damage(c, &mut leaves);
    }
    if let (Some(nan), true) = (nans(p.kinds[0]).first(), c.one_in(20)) {
        let length = nan.len().min(leaves.len());
        leaves[..length].copy_from_slice(&nan[..length]);
    }
    let tiles = if c.one_in(30) { c.of(&[0, n + 1, limits::TILES.end() + 1, u64::MAX]) } else { n };
    let fanout = if c.one_in(30) { c.of(&[0, 1, limits::FANOUT.end() + 1, (1 << 32) + 2, u64::MAX]) } else { f };
    let length = rules::described_length(&p, n, f).expect("numbers within the limits");
    let room = c.of(&[0, 7, length / 2, length - 1, length, length, length, length + 1, length + 40]);
    Case::Write { d, tiles, fanout, leaves, room }
}

/// A footer of a description, of so many tiles, with the domain's bytes.
pub fn footer_around(d: &Description, tiles: u64, domain: &[u8]) -> Vec<u8> {
    let n = d.fields as usize;
    let mut data = [&21u32.to_le_bytes()[..], &1u64.to_le_bytes(), b"s", &[0, 0], domain, &tiles.to_le_bytes(), &1u64.to_le_bytes(), &[0, 0]].concat();
    data.resize(data.len() + 88 * n + 24, 0);
    data.extend((data.len() as u64).to_le_bytes());
    data
}

/// A case's byte strings, to be damaged one byte or one length at a time.
pub fn parts(case: &mut Case) -> Vec<&mut Vec<u8>> {
    match case {
        Case::Footer { footer, .. } => vec![footer],
        Case::Open { footer, tree, .. } => vec![footer, tree],
        Case::Query { tree, ends, .. } => vec![tree, ends],
        Case::Batch { tree, kinds, windows, .. } => vec![tree, kinds, windows],
        Case::BoxTest { stored, ends, .. } => vec![stored, ends],
        Case::Offsets { list, .. } | Case::Sizes { list, .. } => vec![list],
        Case::Write { leaves, .. } => vec![leaves],
        Case::Report { description, footer, tree, offsets, .. } => vec![description, footer, tree, offsets],
    }
}

pub fn make(c: &mut Chance) -> Case {
    let what = c.below(15);
    if what >= 13 {
        return write(c);
    }
    if what == 10 {
        return report(c);
    }
    if what == 12 {
        return box_test(c);
    }
    if what >= 8 {
        let (tiles, size, list) = if what == 11 { var_list(c) } else { list(c, what == 9) };
        let tile = if c.one_in(10) { c.of(&[tiles, u64::MAX]) } else { c.below(tiles.clamp(1, 30)) };
        // A list made for one rule is asked by the other one too.
        let var = (what == 11) != c.one_in(8);
        return if what == 9 { Case::Sizes { tiles, list } } else { Case::Offsets { var, tiles, size, list, tile } };
    }
    let d = description(c);
    if what >= 4 {
        let (file_size, footer, tiles, tree) = pair(c, &d);
        if what >= 6 {
            return Case::Open { d, file_size, footer, tree };
        }
        let tile = if c.one_in(5) { c.of(&[tiles, u64::MAX, tiles - 1]) } else { c.below(tiles) };
        return Case::Footer { d, file_size, footer, tile };
    }
    let mut t = tree(c, &plain(&d));
    let (kinds, ends) = window(c, &d);
    let mut tiles = if c.one_in(40) { c.of(&[0, t.tiles + 1, limits::TILES.end() + 1, u64::MAX]) } else { t.tiles };
    if c.one_in(30) {
        tiles = many(c);
        if c.one_in(2) {
            t.body = front(c, tiles);
        }
    }
    if c.one_in(3) {
        damage(c, &mut t.body);
    }
    if what == 3 {
        return batch(c, d, tiles, t.body);
    }
    Case::Query { d, tiles, tree: t.body, kinds, ends, room: c.below(t.tiles + 3) as usize }
}

/// A footer with the size of its file, its tiles and a tree, of one description; either may have faults.
pub fn pair(c: &mut Chance, d: &Description) -> (u64, Vec<u8>, u64, Vec<u8>) {
    let p = plain(d);
    let mut t = tree(c, &p);
    let mut domain = t.root.clone();
    for side in &mut domain {
        side.0 -= c.below(2) as i64 * 5;
        side.1 += c.below(2) as i64 * 5;
        if c.one_in(60) {
            side.0 += 1;
        }
    }
    if c.one_in(20) {
        t.tiles = many(c);
        if c.one_in(2) {
            t.body = front(c, t.tiles);
        }
    }
    let mut f = footer(c, &p, t.tiles, &domain);
    if c.one_in(4) {
        damage(c, &mut f.data);
    }
    if c.one_in(3) {
        damage(c, &mut t.body);
    }
    (f.file_size, f.data, t.tiles, t.body)
}

#[derive(Clone, Copy)]
pub enum Slip {
    Strict,
    Unsigned,
    Signed,
    FullRows,
    Uncounted,
    LastExtent,
    LastFull,
    NoEmptyTile,
    AnewAtTheStart,
    RefusedTakesAPlace,
    AllRead,
    MissNotRead,
    NoOpenWindow,
    LastOfEquals,
}

/// What a library with this slip would answer, where the slip has a say in the case.
pub fn wrong(case: &Case, slip: Slip) -> Option<(Vec<u64>, Vec<u32>)> {
    match (case, slip) {
        (Case::Query { d, tiles, tree, kinds, ends, room }, Slip::Strict | Slip::Unsigned | Slip::Signed | Slip::FullRows | Slip::Uncounted) => {
            rules::query(d, *tiles, tree, kinds, ends).ok()?;
            let s = rules::shape(d, *tiles, tree).ok()?;
            let w = rules::window_of(kinds, ends);
            let (mut found, mut looked) = (vec![], 0);
            slipped(d, &s, tree, &w, slip, 0, 0, &mut found, &mut looked);
            let mut out: Vec<u32> = (0..*room as u32).map(|i| 0xdead_0000 + i).collect();
            let fits = found.len().min(out.len());
            out[..fits].copy_from_slice(&found[..fits]);
            Some((vec![0, 0, found.len() as u64, looked], out))
        }
        (Case::Query { d, tiles, tree, kinds, ends, room }, Slip::NoOpenWindow) => {
            rules::query(d, *tiles, tree, kinds, ends).ok()?;
            let side = rules::window_of(kinds, ends).iter().position(|(low, high)| low.is_infinite() || high.is_infinite())?;
            Some((vec![rules::refusal::INFINITE, side as u64, 0, 0], (0..*room as u32).map(|i| 0xdead_0000 + i).collect()))
        }
        (Case::Offsets { var: false, tiles, size, list, tile }, Slip::LastExtent) => {
            let (offset, extent) = rules::extent(&Ok(rules::offsets(*tiles, *size, list).ok()?), *size, *tile);
            let next = rules::number(list, 8 + 8 * (*tile as usize).saturating_add(1).min(1 << 20), 8);
            let extent = if *tile < *tiles { next.wrapping_sub(offset) } else { extent };
            Some((vec![0, 0, *tiles, offset, extent], vec![]))
        }
        (Case::Offsets { var: true, tiles, size, list, tile }, Slip::NoEmptyTile) => {
            let (tiles, size, list, tile) = (*tiles, *size, list.clone(), *tile);
            Some(crate::right(&Case::Offsets { var: false, tiles, size, list, tile }))
        }
        (Case::Batch { d, tiles, tree, kinds, windows, .. }, Slip::AnewAtTheStart | Slip::RefusedTakesAPlace) => {
            let (answer, mut out) = crate::right(case);
            if answer[0] != 0 {
                return None;
            }
            let width = rules::window_width(kinds);
            let (mut free, before) = (0, |i: usize| 0xdead_0000 + i as u32);
            out.iter_mut().enumerate().for_each(|(i, place)| *place = before(i));
            for ends in windows.chunks(width.max(1)) {
                let found = rules::query(d, *tiles, tree, kinds, ends).map_or(None, |(found, _)| Some(found));
                let fits = found.as_ref().map_or(1, Vec::len).min(out.len() - free);
                out[free..free + fits].copy_from_slice(&found.unwrap_or(vec![0])[..fits]);
                free = if matches!(slip, Slip::AnewAtTheStart) { 0 } else { free + fits };
            }
            Some((answer, out))
        }
        (Case::BoxTest { d, stored, kinds, ends }, Slip::AllRead) => {
            let (meets, _) = rules::box_test(d, stored, kinds, ends).ok()?;
            Some((vec![0, 0, u64::from(meets), d.kinds.len() as u64], vec![]))
        }
        (Case::BoxTest { d, stored, kinds, ends }, Slip::MissNotRead) => {
            let (meets, read) = rules::box_test(d, stored, kinds, ends).ok()?;
            Some((vec![0, 0, u64::from(meets), if meets { read } else { read - 1 }], vec![]))
        }
        (Case::Write { d, tiles, fanout, leaves, room }, Slip::LastOfEquals) => {
            // Of leaves in reverse, the first that has an end is the last of them.
            let body = rules::write_tree(d, *tiles, *fanout, leaves, *room).ok()?;
            (*tiles <= *fanout && *tiles > 1).then_some(())?;
            let b = d.box_bytes();
            let reversed: Vec<u8> = leaves.chunks(b).rev().flatten().copied().collect();
            let other = rules::write_tree(d, *tiles, *fanout, &reversed, *room).ok()?;
            let mut wrong = crate::right(case);
            for (place, byte) in wrong.1.iter_mut().zip(body[..16].iter().chain(&other[16..16 + b])) {
                *place = u32::from(*byte);
            }
            Some(wrong)
        }
        (Case::Footer { d, file_size, footer, tile }, Slip::LastFull) => {
            let f = rules::footer(d, *file_size, footer).ok()?;
            let full = rules::Footer { last_cells: d.capacity, ..f };
            let mut answer = crate::right(case).0;
            let last = answer.len() - 2;
            answer[last] = rules::cells(&full, d.capacity, *tile);
            Some((answer, vec![]))
        }
        _ => None,
    }
}

#[allow(clippy::too_many_arguments)]
fn slipped(
    d: &Description, s: &rules::Shape, body: &[u8], w: &[rules::Range], slip: Slip, level: usize, k: u64, found: &mut Vec<u32>, looked: &mut u64,
) {
    let at = |level: usize, k: u64| rules::stored_box(&d.kinds, body, s.starts[level] + k as usize * d.box_bytes());
    let here = at(level, k);
    *looked += 1;
    let hit = match slip {
        Slip::Strict => here.iter().zip(w).all(|(b, q)| !q.1.at_most(b.0) && !b.1.at_most(q.0)),
        Slip::Unsigned => here.iter().zip(w).all(|(b, q)| below_unsigned(b.0, q.1) && below_unsigned(q.0, b.1)),
        Slip::Signed => here.iter().zip(w).all(|(b, q)| below_signed(b.0, q.1) && below_signed(q.0, b.1)),
        _ => rules::meets(&here, w),
    };
    if !hit {
        return;
    }
    if level == s.counts.len() - 1 {
        found.push(k as u32);
        return;
    }
    let mut last = (k * s.fanout + s.fanout).min(s.counts[level + 1]);
    if matches!(slip, Slip::FullRows) {
        last = last.min(s.counts[level + 1] / s.fanout * s.fanout).max(k * s.fanout);
    }
    for child in k * s.fanout..last {
        slipped(d, s, body, w, slip, level + 1, child, found, looked);
        if matches!(slip, Slip::Uncounted) && rules::inside(&here, w) {
            *looked -= 1;
        }
    }
}

fn below_unsigned(a: rules::End, b: rules::End) -> bool {
    match (a, b) {
        (rules::End::Int(x), rules::End::Int(y)) => x as u64 <= y as u64,
        _ => a.at_most(b),
    }
}

fn below_signed(a: rules::End, b: rules::End) -> bool {
    match (a, b) {
        (rules::End::Unsigned(x), rules::End::Unsigned(y)) => x as i64 <= y as i64,
        _ => a.at_most(b),
    }
}
