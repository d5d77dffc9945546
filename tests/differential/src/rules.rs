//! The rules of docs/RULES.md, worked out plainly and slowly: every check where the rules name it, every box by itself.

/// TileDB's Datatype number, and the bytes of a range.
#[derive(Clone, Copy)]
pub struct Kind {
    pub number: u8,
    pub range_bytes: usize,
    read: fn(&[u8]) -> End,
}

pub const INT32: Kind = Kind { number: 0, range_bytes: 8, read: |end| End::Int(number(end, 0, 4) as u32 as i32 as i64) };
pub const INT64: Kind = Kind { number: 1, range_bytes: 16, read: |end| End::Int(number(end, 0, 8) as i64) };
pub const FLOAT32: Kind = Kind { number: 2, range_bytes: 8, read: |end| End::Single(f32::from_bits(number(end, 0, 4) as u32)) };
pub const FLOAT64: Kind = Kind { number: 3, range_bytes: 16, read: |end| End::Double(f64::from_bits(number(end, 0, 8))) };
pub const UINT64: Kind = Kind { number: 10, range_bytes: 16, read: |end| End::Unsigned(number(end, 0, 8)) };

pub const KINDS: [Kind; 5] = [INT32, INT64, FLOAT32, FLOAT64, UINT64];

/// The kind of a number, if it is one.
pub fn kind(number: u8) -> Option<Kind> {
    KINDS.into_iter().find(|kind| kind.number == number)
}

/// Least and most.
pub mod limits {
    use std::ops::RangeInclusive;

    pub const DIMENSIONS: RangeInclusive<u64> = 1..=4;
    pub const FIELDS: RangeInclusive<u64> = 1..=64;
    pub const CAPACITY: RangeInclusive<u64> = 1..=1_000_000_000;
    pub const VERSION: RangeInclusive<u64> = 16..=21;
    pub const NAME: RangeInclusive<u64> = 1..=255;
    pub const TILES: RangeInclusive<u64> = 1..=16_777_216;
    pub const FANOUT: RangeInclusive<u64> = 2..=1_024;
}

/// The refusal numbers.
pub mod refusal {
    pub const DESCRIPTION: u64 = 1;
    pub const BYTES: u64 = 2;
    pub const VERSION: u64 = 3;
    pub const NAME_SIZE: u64 = 4;
    pub const FLAG: u64 = 5;
    pub const DENSE: u64 = 6;
    pub const NULL_DOMAIN: u64 = 7;
    pub const NOT_A_NUMBER: u64 = 8;
    pub const REVERSED: u64 = 9;
    pub const TILES: u64 = 10;
    pub const LAST_CELLS: u64 = 11;
    pub const OFFSET: u64 = 12;
    pub const FANOUT: u64 = 13;
    pub const LEVELS: u64 = 14;
    pub const OUTSIDE_PARENT: u64 = 15;
    pub const OUTSIDE_DOMAIN: u64 = 16;
    pub const COUNT: u64 = 17;
    pub const TILE_OFFSETS: u64 = 18;
    pub const WINDOW: u64 = 19;
    pub const SUM: u64 = 20;
    pub const WORK: u64 = 21;
    pub const RUNS: u64 = 22;
    pub const INFINITE: u64 = 23;
    pub const BAD_LINE: u64 = 24;
    pub const REPEATED: u64 = 25;
    pub const ROOM: u64 = 26;
    pub const NULL_COUNT: u64 = 27;
    pub const RETIRED: u64 = 28;
    pub const GRID: u64 = 29;
}

#[derive(Clone, Copy, Debug, PartialEq)]
pub struct Refused {
    pub number: u64,
    pub place: u64,
    pub which: u64,
}

pub type Answer<T> = Result<T, Refused>;

pub fn refuse<T>(number: u64, place: usize) -> Answer<T> {
    Err(Refused { number, place: place as u64, which: 0 })
}

/// A description as C has it: one kind number a dimension.
#[derive(Clone, Debug)]
pub struct Description {
    pub kinds: Vec<u8>,
    pub fields: u64,
    pub capacity: u64,
}

/// The bytes of a range. A number that is no kind is refused before anything after it is read, so that any number does for it.
pub fn width(number: u8) -> usize {
    kind(number).unwrap_or(FLOAT64).range_bytes
}

impl Description {
    pub fn check(&self) -> Answer<()> {
        self.check_limits()?;
        match self.kinds.iter().position(|k| *k == FLOAT32.number) {
            Some(dimension) => refuse(refusal::RETIRED, dimension),
            None => Ok(()),
        }
    }

    /// All that was asked of a description when float32 was a kind like the others.
    pub fn check_limits(&self) -> Answer<()> {
        let kinds = limits::DIMENSIONS.contains(&(self.kinds.len() as u64)) && self.kinds.iter().all(|k| kind(*k).is_some());
        if kinds && limits::FIELDS.contains(&self.fields) && limits::CAPACITY.contains(&self.capacity) {
            Ok(())
        } else {
            refuse(refusal::DESCRIPTION, 0)
        }
    }

    pub fn box_bytes(&self) -> usize {
        self.kinds.iter().map(|k| width(*k)).sum()
    }
}

pub fn number(data: &[u8], at: usize, size: usize) -> u64 {
    (0..size).map(|i| (*data.get(at + i).unwrap_or(&0) as u64) << (8 * i)).sum()
}

/// An end of a range. Ends are compared only within a kind.
#[derive(Clone, Copy, Debug)]
pub enum End {
    Int(i64),
    Single(f32),
    Double(f64),
    Unsigned(u64),
}

impl End {
    /// An end of a kind; a number that is no kind is refused before its ends are looked at, so that any end does for it.
    pub fn read(number: u8, data: &[u8], at: usize) -> End {
        (kind(number).unwrap_or(FLOAT64).read)(data.get(at..).unwrap_or(&[]))
    }

    pub fn is_nan(self) -> bool {
        match self {
            End::Int(_) | End::Unsigned(_) => false,
            End::Single(x) => x.is_nan(),
            End::Double(x) => x.is_nan(),
        }
    }

    pub fn is_infinite(self) -> bool {
        match self {
            End::Int(_) | End::Unsigned(_) => false,
            End::Single(x) => x.is_infinite(),
            End::Double(x) => x.is_infinite(),
        }
    }

    pub fn at_most(self, other: End) -> bool {
        match (self, other) {
            (End::Int(a), End::Int(b)) => a <= b,
            (End::Single(a), End::Single(b)) => a <= b,
            (End::Double(a), End::Double(b)) => a <= b,
            (End::Unsigned(a), End::Unsigned(b)) => a <= b,
            _ => false,
        }
    }
}

pub type Range = (End, End);

pub fn stored_box(kinds: &[u8], data: &[u8], mut at: usize) -> Vec<Range> {
    let mut sides = vec![];
    for kind in kinds {
        let half = width(*kind) / 2;
        sides.push((End::read(*kind, data, at), End::read(*kind, data, at + half)));
        at += 2 * half;
    }
    sides
}

fn check_ranges(kinds: &[u8], data: &[u8], mut at: usize) -> Answer<()> {
    for (kind, (low, high)) in kinds.iter().zip(stored_box(kinds, data, at)) {
        if low.is_nan() || high.is_nan() {
            return refuse(refusal::NOT_A_NUMBER, at);
        }
        if low.is_infinite() || high.is_infinite() {
            return refuse(refusal::INFINITE, at);
        }
        if !low.at_most(high) {
            return refuse(refusal::REVERSED, at);
        }
        at += width(*kind);
    }
    Ok(())
}

pub fn inside(inner: &[Range], outer: &[Range]) -> bool {
    inner.iter().zip(outer).all(|(i, o)| o.0.at_most(i.0) && i.1.at_most(o.1))
}

pub fn meets(stored: &[Range], window: &[Range]) -> bool {
    stored.iter().zip(window).all(|(s, w)| s.0.at_most(w.1) && w.0.at_most(s.1))
}

pub struct Footer {
    pub numbers: Vec<u64>,
    pub name: (usize, usize),
    pub domain: Vec<Range>,
    pub domain_at: usize,
    pub lists: Vec<Vec<u64>>,
    pub tiles: u64,
    pub last_cells: u64,
}

pub fn footer(d: &Description, file_size: u64, data: &[u8]) -> Answer<Footer> {
    d.check()?;
    described_footer(d, file_size, data)
}

/// What is said of a footer once the description has passed.
pub fn described_footer(d: &Description, file_size: u64, data: &[u8]) -> Answer<Footer> {
    if data.len() < 12 {
        return refuse(refusal::BYTES, data.len());
    }
    let version = number(data, 0, 4);
    if !limits::VERSION.contains(&version) {
        return refuse(refusal::VERSION, 0);
    }
    let size = number(data, 4, 8);
    if !limits::NAME.contains(&size) {
        return refuse(refusal::NAME_SIZE, 4);
    }
    let (n, size) = (d.fields as usize, size as usize);
    let total = 64 + size + d.box_bytes() + 88 * n;
    if data.len() != total || file_size < total as u64 {
        return refuse(refusal::BYTES, data.len());
    }
    let mut at = 12 + size;
    for number_of_one in [refusal::DENSE, refusal::NULL_DOMAIN] {
        match data[at] {
            0 => (),
            1 => return refuse(number_of_one, at),
            _ => return refuse(refusal::FLAG, at),
        }
        at += 1;
    }
    let domain_at = at;
    check_ranges(&d.kinds, data, at)?;
    let domain = stored_box(&d.kinds, data, at);
    at += d.box_bytes();
    let tiles = number(data, at, 8);
    if !limits::TILES.contains(&tiles) {
        return refuse(refusal::TILES, at);
    }
    let last_cells = number(data, at + 8, 8);
    if !(1..=d.capacity).contains(&last_cells) {
        return refuse(refusal::LAST_CELLS, at + 8);
    }
    at += 16;
    let mut flags = [0u64; 2];
    for flag in &mut flags {
        if data[at] > 1 {
            return refuse(refusal::FLAG, at);
        }
        *flag = data[at] as u64;
        at += 1;
    }
    let mut lists = vec![];
    for _ in 0..3 {
        lists.push((0..n).map(|i| number(data, at + 8 * i, 8)).collect::<Vec<_>>());
        at += 8 * n;
    }
    let limit = file_size - total as u64;
    let offset = |at: &mut usize| -> Answer<u64> {
        let value = number(data, *at, 8);
        if value >= limit {
            return refuse(refusal::OFFSET, *at);
        }
        *at += 8;
        Ok(value)
    };
    let rtree = offset(&mut at)?;
    for _ in 0..8 {
        let mut list = vec![];
        for _ in 0..n {
            list.push(offset(&mut at)?);
        }
        lists.push(list);
    }
    let fragment = offset(&mut at)?;
    let conditions = offset(&mut at)?;
    let length = number(data, at, 8);
    if length != total as u64 - 8 {
        return refuse(refusal::BYTES, data.len());
    }
    let numbers = vec![version, size as u64, 0, 0, tiles, last_cells, flags[0], flags[1], rtree, fragment, conditions, length];
    Ok(Footer { numbers, name: (12, size), domain, domain_at, lists, tiles, last_cells })
}

pub fn cells(f: &Footer, capacity: u64, tile: u64) -> u64 {
    if tile >= f.tiles {
        0
    } else if tile == f.tiles - 1 {
        f.last_cells
    } else {
        capacity
    }
}

/// Counts of the levels, root first, and where their boxes start.
pub struct Shape {
    pub fanout: u64,
    pub counts: Vec<u64>,
    pub starts: Vec<usize>,
}

pub fn shape(d: &Description, n: u64, body: &[u8]) -> Answer<Shape> {
    if body.len() < 8 {
        return refuse(refusal::BYTES, body.len());
    }
    let fanout = number(body, 0, 4);
    if !limits::FANOUT.contains(&fanout) {
        return refuse(refusal::FANOUT, 0);
    }
    let mut counts = vec![n];
    while counts[0] > 1 {
        let above = counts[0] / fanout + u64::from(counts[0] % fanout != 0);
        counts.insert(0, above);
    }
    if number(body, 4, 4) != counts.len() as u64 {
        return refuse(refusal::LEVELS, 4);
    }
    let b = d.box_bytes();
    let boxes: u64 = counts.iter().sum();
    if body.len() != 8 + 8 * counts.len() + b * boxes as usize {
        return refuse(refusal::BYTES, body.len());
    }
    let (mut starts, mut at) = (vec![], 8);
    for count in &counts {
        if number(body, at, 8) != *count {
            return refuse(refusal::LEVELS, at);
        }
        starts.push(at + 8);
        at += 8 + b * *count as usize;
    }
    Ok(Shape { fanout, counts, starts })
}

pub fn open(d: &Description, file_size: u64, foot: &[u8], body: &[u8]) -> Answer<(u64, u64, u64)> {
    d.check()?;
    described_open(d, file_size, foot, body)
}

/// What is said of both once the description has passed.
pub fn described_open(d: &Description, file_size: u64, foot: &[u8], body: &[u8]) -> Answer<(u64, u64, u64)> {
    let f = described_footer(d, file_size, foot)?;
    second(d, &f, body).map_err(|r| Refused { which: 1, ..r })
}

/// A body of a stated length, of which these bytes came, with a work buffer of so much room.
pub fn parts(d: &Description, file_size: u64, foot: &[u8], stated: u64, room: usize, got: &[u8]) -> Answer<(u64, u64, u64)> {
    let f = footer(d, file_size, foot)?;
    let came = &got[..got.len().min(usize::try_from(stated).unwrap_or(usize::MAX))];
    shown(d, f.tiles, stated, room, came).map_err(|r| Refused { which: u64::from(r.number != refusal::WORK), ..r })?;
    if got.len() as u64 != stated {
        return Err(Refused { number: refusal::BYTES, place: came.len() as u64, which: 1 });
    }
    open(d, file_size, foot, got)
}

/// What is shown of the shape, and of the room, by the bytes that came.
fn shown(d: &Description, n: u64, stated: u64, room: usize, came: &[u8]) -> Answer<()> {
    let length_wrong = Err(Refused { number: refusal::BYTES, place: stated, which: 1 });
    if stated < 8 {
        return length_wrong;
    }
    if came.len() < 4 {
        return Ok(());
    }
    let fanout = number(came, 0, 4);
    if !limits::FANOUT.contains(&fanout) {
        return refuse(refusal::FANOUT, 0);
    }
    let mut counts = vec![n];
    while counts[0] > 1 {
        counts.insert(0, counts[0].div_ceil(fanout));
    }
    if came.len() >= 8 && number(came, 4, 4) != counts.len() as u64 {
        return refuse(refusal::LEVELS, 4);
    }
    let b = d.box_bytes();
    let boxes = counts.iter().sum::<u64>() as usize;
    if stated != (8 + 8 * counts.len() + b * boxes) as u64 {
        return length_wrong;
    }
    if room < b * (boxes - n as usize) {
        return refuse(refusal::WORK, 0);
    }
    let mut at = 8;
    for count in counts {
        if at + 8 <= came.len() && number(came, at, 8) != count {
            return refuse(refusal::LEVELS, at);
        }
        at += 8 + b * count as usize;
    }
    Ok(())
}

fn second(d: &Description, f: &Footer, body: &[u8]) -> Answer<(u64, u64, u64)> {
    let s = shape(d, f.tiles, body)?;
    let b = d.box_bytes();
    for level in 0..s.counts.len() {
        for k in 0..s.counts[level] {
            let at = s.starts[level] + k as usize * b;
            check_ranges(&d.kinds, body, at)?;
            let here = stored_box(&d.kinds, body, at);
            if level == 0 {
                if !inside(&here, &f.domain) {
                    return refuse(refusal::OUTSIDE_DOMAIN, at);
                }
            } else {
                let parent = s.starts[level - 1] + (k / s.fanout) as usize * b;
                if !inside(&here, &stored_box(&d.kinds, body, parent)) {
                    return refuse(refusal::OUTSIDE_PARENT, at);
                }
            }
        }
    }
    Ok((f.tiles, s.fanout, s.counts.len() as u64))
}

/// The window's ranges, each in its own kind; ends that are not all there count as from 0 to 0.
pub fn window_of(kinds: &[u8], ends: &[u8]) -> Vec<Range> {
    let (mut sides, mut at) = (vec![], 0);
    for kind in kinds {
        let w = width(*kind);
        let zeros = [0u8; 16];
        let part = if at + w <= ends.len() { &ends[at..at + w] } else { &zeros[..w] };
        sides.push((End::read(*kind, part, 0), End::read(*kind, part, w / 2)));
        at += w;
    }
    sides
}

/// The window, if its kinds and ends are in order.
pub fn checked_window(d: &Description, kinds: &[u8], ends: &[u8]) -> Answer<Vec<Range>> {
    if kinds.len() != d.kinds.len() {
        return refuse(refusal::WINDOW, 0);
    }
    let window = window_of(kinds, ends);
    for (i, (low, high)) in window.iter().enumerate() {
        if kinds[i] != d.kinds[i] {
            return refuse(refusal::WINDOW, i);
        }
        if low.is_nan() || high.is_nan() {
            return refuse(refusal::NOT_A_NUMBER, i);
        }
        if !low.at_most(*high) {
            return refuse(refusal::REVERSED, i);
        }
    }
    Ok(window)
}

/// Whether one box meets the window, and how many of its dimensions are read: up to the first miss, or all of them.
pub fn box_test(d: &Description, data: &[u8], kinds: &[u8], ends: &[u8]) -> Answer<(bool, u64)> {
    d.check()?;
    let window = checked_window(d, kinds, ends)?;
    if data.len() != d.box_bytes() {
        return refuse(refusal::BYTES, data.len());
    }
    let stored = stored_box(&d.kinds, data, 0);
    let hits = |i: usize| meets(&stored[i..i + 1], &window[i..i + 1]);
    Ok(match (0..stored.len()).find(|i| !hits(*i)) {
        Some(first) => (false, first as u64 + 1),
        None => (true, stored.len() as u64),
    })
}

pub fn query(d: &Description, n: u64, body: &[u8], kinds: &[u8], ends: &[u8]) -> Answer<(Vec<u32>, u64)> {
    d.check()?;
    described_query(d, n, body, kinds, ends)
}

/// What is said of a query once the description has passed.
pub fn described_query(d: &Description, n: u64, body: &[u8], kinds: &[u8], ends: &[u8]) -> Answer<(Vec<u32>, u64)> {
    if !limits::TILES.contains(&n) {
        return refuse(refusal::TILES, 0);
    }
    let window = checked_window(d, kinds, ends)?;
    let s = shape(d, n, body)?;
    let (mut found, mut looked) = (vec![], 0);
    look(d, &s, body, &window, 0, 0, &mut found, &mut looked);
    Ok((found, looked))
}

#[allow(clippy::too_many_arguments)]
fn look(d: &Description, s: &Shape, body: &[u8], window: &[Range], level: usize, k: u64, found: &mut Vec<u32>, looked: &mut u64) {
    *looked += 1;
    if !meets(&stored_box(&d.kinds, body, s.starts[level] + k as usize * d.box_bytes()), window) {
        return;
    }
    if level == s.counts.len() - 1 {
        found.push(k as u32);
        return;
    }
    for child in k * s.fanout..(k * s.fanout + s.fanout).min(s.counts[level + 1]) {
        look(d, s, body, window, level + 1, child, found, looked);
    }
}

/// What a batch says of one window: what the query says, and the places that it uses.
pub struct Record {
    pub answer: Answer<(u64, u64)>,
    pub used: usize,
}

/// The bytes of a window in a run of them: a number that is no kind counts as int32, and of more than four numbers the first four count.
pub fn window_width(kinds: &[u8]) -> usize {
    let most = *limits::DIMENSIONS.end() as usize;
    kinds.iter().take(most).map(|number| kind(*number).unwrap_or(INT32).range_bytes).sum()
}

/// Each window of a batch in turn, with the places from the first that is free on. Before that: the windows' bytes are those of as many windows
/// as there are records.
pub fn batch(d: &Description, n: u64, body: &[u8], kinds: &[u8], windows: &[u8], records: usize, out: &mut [u32]) -> Answer<Vec<Record>> {
    let width = window_width(kinds);
    if windows.len() != records * width {
        return refuse(refusal::RUNS, 0);
    }
    let mut free = 0;
    Ok((0..records)
        .map(|i| match query(d, n, body, kinds, &windows[i * width..(i + 1) * width]) {
            Ok((found, looked)) => {
                let used = found.len().min(out.len() - free);
                out[free..free + used].copy_from_slice(&found[..used]);
                free += used;
                Record { answer: Ok((found.len() as u64, looked)), used }
            }
            Err(r) => Record { answer: Err(r), used: 0 },
        })
        .collect())
}

/// The flat listing and the flat count of a body whose shape is right.
pub fn flat(d: &Description, s: &Shape, body: &[u8], window: &[Range]) -> (Vec<u32>, u64) {
    let last = s.counts.len() - 1;
    let at = |level: usize, k: u64| meets(&stored_box(&d.kinds, body, s.starts[level] + k as usize * d.box_bytes()), window);
    let listing = (0..s.counts[last]).filter(|k| at(last, *k)).map(|k| k as u32).collect();
    let mut count = 1;
    for level in 0..last {
        for k in 0..s.counts[level] {
            if at(level, k) {
                count += s.fanout.min(s.counts[level + 1] - k * s.fanout);
            }
        }
    }
    (listing, count)
}

/// The bytes of a tree of so many tiles, by the counts of its levels.
pub fn tree_length(d: &Description, n: u64, f: u64) -> Answer<usize> {
    d.check()?;
    described_length(d, n, f)
}

pub fn described_length(d: &Description, n: u64, f: u64) -> Answer<usize> {
    if !limits::TILES.contains(&n) {
        return refuse(refusal::TILES, 0);
    }
    if !limits::FANOUT.contains(&f) {
        return refuse(refusal::FANOUT, 0);
    }
    let (mut count, mut boxes, mut levels) = (n, n, 1);
    while count > 1 {
        count = count.div_ceil(f);
        boxes += count;
        levels += 1;
    }
    Ok(8 + 8 * levels + d.box_bytes() * boxes as usize)
}

/// The whole body of a tree with these leaves, for an output buffer of so many bytes.
pub fn write_tree(d: &Description, n: u64, f: u64, leaves: &[u8], room: usize) -> Answer<Vec<u8>> {
    let length = tree_length(d, n, f)?;
    let b = d.box_bytes();
    if leaves.len() as u64 != n * b as u64 {
        return refuse(refusal::BYTES, leaves.len());
    }
    for k in 0..n as usize {
        check_ranges(&d.kinds, leaves, k * b)?;
    }
    if room < length {
        return refuse(refusal::ROOM, 0);
    }
    let mut levels: Vec<Vec<Vec<u8>>> = vec![leaves.chunks(b).map(|leaf| leaf.to_vec()).collect()];
    while levels[0].len() > 1 {
        let above = levels[0].chunks(f as usize).map(|row| around(&d.kinds, row)).collect();
        levels.insert(0, above);
    }
    let mut body = [(f as u32).to_le_bytes(), (levels.len() as u32).to_le_bytes()].concat();
    for level in levels {
        body.extend((level.len() as u64).to_le_bytes());
        body.extend(level.concat());
    }
    assert_eq!(body.len(), length);
    Ok(body)
}

/// The least box around a row: each end has the bytes of the first box that no other surpasses.
fn around(kinds: &[u8], row: &[Vec<u8>]) -> Vec<u8> {
    let (mut made, mut at) = (vec![], 0);
    for kind in kinds {
        let half = width(*kind) / 2;
        for (from, lower) in [(at, true), (at + half, false)] {
            let end = |data: &[u8]| End::read(*kind, data, from);
            let best = |one: &&Vec<u8>| {
                row.iter().all(|other| if lower { end(one).at_most(end(other)) } else { end(other).at_most(end(one)) })
            };
            made.extend(&row.iter().find(best).expect("ends without NaN have a lowest and a highest")[from..from + half]);
        }
        at += 2 * half;
    }
    made
}

fn entries(n: u64, data: &[u8]) -> Answer<Vec<u64>> {
    if !limits::TILES.contains(&n) {
        return refuse(refusal::TILES, 0);
    }
    if data.len() < 8 {
        return refuse(refusal::BYTES, data.len());
    }
    if number(data, 0, 8) != n {
        return refuse(refusal::COUNT, 0);
    }
    if data.len() as u64 != 8 + 8 * n {
        return refuse(refusal::BYTES, data.len());
    }
    Ok((0..n as usize).map(|i| number(data, 8 + 8 * i, 8)).collect())
}

pub fn offsets(n: u64, size: u64, data: &[u8]) -> Answer<Vec<u64>> {
    let list = entries(n, data)?;
    for (i, x) in list.iter().enumerate() {
        let in_order = if i == 0 { *x == 0 } else { *x > list[i - 1] };
        if !in_order || *x >= size {
            return refuse(refusal::TILE_OFFSETS, 8 + 8 * i);
        }
    }
    Ok(list)
}

/// Offsets of tiles that may have no bytes.
pub fn var_offsets(n: u64, size: u64, data: &[u8]) -> Answer<Vec<u64>> {
    let list = entries(n, data)?;
    for (i, x) in list.iter().enumerate() {
        let in_order = if i == 0 { *x == 0 } else { *x >= list[i - 1] };
        if !in_order || *x > size {
            return refuse(refusal::TILE_OFFSETS, 8 + 8 * i);
        }
    }
    Ok(list)
}

/// A tile's offset and extent in a list that was checked, by either rule.
pub fn extent(checked: &Answer<Vec<u64>>, size: u64, tile: u64) -> (u64, u64) {
    match checked {
        Ok(list) if tile < list.len() as u64 => {
            let i = tile as usize;
            (list[i], list.get(i + 1).copied().unwrap_or(size) - list[i])
        }
        _ => (0, 0),
    }
}

pub fn sizes(n: u64, data: &[u8]) -> Answer<u64> {
    let mut sum: u128 = 0;
    for (i, x) in entries(n, data)?.iter().enumerate() {
        sum += *x as u128;
        if sum >= 1 << 64 {
            return refuse(refusal::SUM, 8 + 8 * i);
        }
    }
    Ok(sum as u64)
}

/// A decimal number: no leading zeros, a minus only before a nonzero number.
pub fn decimal(line: &[u8]) -> Option<i128> {
    let (minus, digits) = match line.strip_prefix(b"-") {
        Some(rest) => (true, rest),
        None => (false, line),
    };
    let well = !digits.is_empty() && digits.len() <= 30 && digits.iter().all(u8::is_ascii_digit) && (digits == b"0" || digits[0] != b'0');
    if !well || (minus && digits == b"0") {
        return None;
    }
    let value = digits.iter().fold(0i128, |n, c| 10 * n + (c - b'0') as i128);
    Some(if minus { -value } else { value })
}

struct Asked {
    d: Description,
    file_size: u64,
    size: u64,
    ends: Vec<u8>,
}

/// What the description file of a report says.
fn asked(text: &[u8]) -> Option<Asked> {
    let mut lines: Vec<&[u8]> = text.split(|c| *c == b'\n').collect();
    if lines.last() == Some(&&b""[..]) {
        lines.pop();
    }
    let mut lines = lines.into_iter();
    let mut number = |low: i128, high: i128| lines.next().and_then(decimal).filter(|x| (low..=high).contains(x));
    let most = u64::MAX as i128;
    let dimensions = number(*limits::DIMENSIONS.start() as i128, *limits::DIMENSIONS.end() as i128)?;
    let mut kinds = vec![];
    for _ in 0..dimensions {
        kinds.push(match number(32, 64)? {
            32 => INT32.number,
            64 => INT64.number,
            _ => return None,
        });
    }
    let (fields, capacity) = (number(0, most)? as u64, number(0, most)? as u64);
    let (file_size, size) = (number(0, most)? as u64, number(0, most)? as u64);
    let mut ends = vec![];
    for kind in &kinds {
        for _ in 0..2 {
            if *kind == INT32.number {
                ends.extend((number(i32::MIN as i128, i32::MAX as i128)? as i32).to_le_bytes());
            } else {
                ends.extend((number(i64::MIN as i128, i64::MAX as i128)? as i64).to_le_bytes());
            }
        }
    }
    let d = Description { kinds, fields, capacity };
    if lines.next().is_some() || d.check().is_err() {
        return None;
    }
    Some(Asked { d, file_size, size, ends })
}

/// The whole report.
pub fn report(description: &[u8], foot: &[u8], tree: &[u8], list: &[u8]) -> Vec<u8> {
    if [description, foot, tree, list].iter().any(|part| part.len() > 65_536) {
        return b"too long\n".to_vec();
    }
    match listing(description, foot, tree, list) {
        Ok(text) => text.into_bytes(),
        Err(r) => format!("refused\t{}\t{}\n", r.number, r.place).into_bytes(),
    }
}

fn listing(description: &[u8], foot: &[u8], tree: &[u8], list: &[u8]) -> Answer<String> {
    let Some(a) = asked(description) else { return refuse(refusal::DESCRIPTION, 0) };
    let (n, _, _) = open(&a.d, a.file_size, foot, tree)?;
    let starts = offsets(n, a.size, list)?;
    let (found, looked) = query(&a.d, n, tree, &a.d.kinds, &a.ends)?;
    let f = footer(&a.d, a.file_size, foot)?;
    let mut text = format!("tiles\t{n}\tfound\t{}\tlooked\t{looked}\n", found.len());
    for tile in found {
        let i = tile as usize;
        let end = starts.get(i + 1).copied().unwrap_or(a.size);
        text += &format!("{tile}\t{}\t{}\t{}\n", starts[i], end - starts[i], cells(&f, a.d.capacity, tile as u64));
    }
    Ok(text)
}
