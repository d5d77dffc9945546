//! The library's operations as one would write them in plain Rust, to compare speeds with: the same input, the same checks, the same walk, no
//! proofs. What goes in and comes out is what the C functions take and answer, so that one could stand in for the other.

#[path = "plain_convert.rs"]
pub mod convert;
#[path = "plain_dense.rs"]
pub mod dense;
#[path = "plain_replay.rs"]
pub mod replay;

/// By TileDB's Datatype number.
#[derive(Clone, Copy, PartialEq)]
pub enum Kind {
    Int32 = 0,
    Int64 = 1,
    Float32 = 2,
    Float64 = 3,
    Uint64 = 10,
}

/// Least and most.
pub mod limits {
    use std::ops::RangeInclusive;

    pub const DIMENSIONS: RangeInclusive<usize> = 1..=4;
    pub const FIELDS: RangeInclusive<u64> = 1..=64;
    pub const CAPACITY: RangeInclusive<u64> = 1..=1_000_000_000;
    pub const VERSION: RangeInclusive<u32> = 16..=21;
    pub const NAME: RangeInclusive<u64> = 1..=255;
    pub const TILES: RangeInclusive<u64> = 1..=16_777_216;
    pub const FANOUT: RangeInclusive<usize> = 2..=1_024;
}

/// The refusal numbers.
pub mod refusal {
    pub const DESCRIPTION: u64 = 1;
    pub const BYTES: u64 = 2;
    pub const VERSION: u64 = 3;
    pub const NAME_SIZE: u64 = 4;
    pub const FLAG: u64 = 5;
    pub const DENSE: u64 = 6;
    pub const NULL_DOMAIN: u64 = 7;
    pub const NOT_A_NUMBER: u64 = 8;
    pub const REVERSED: u64 = 9;
    pub const TILES: u64 = 10;
    pub const LAST_CELLS: u64 = 11;
    pub const OFFSET: u64 = 12;
    pub const FANOUT: u64 = 13;
    pub const LEVELS: u64 = 14;
    pub const OUTSIDE_PARENT: u64 = 15;
    pub const OUTSIDE_DOMAIN: u64 = 16;
    pub const COUNT: u64 = 17;
    pub const TILE_OFFSETS: u64 = 18;
    pub const WINDOW: u64 = 19;
    pub const SUM: u64 = 20;
    pub const WORK: u64 = 21;
    /// A batch's, of which nothing stands here.
    #[allow(dead_code)]
    pub const RUNS: u64 = 22;
    pub const INFINITE: u64 = 23;
    pub const BAD_LINE: u64 = 24;
    pub const REPEATED: u64 = 25;
    pub const ROOM: u64 = 26;
    pub const NULL_COUNT: u64 = 27;
    pub const RETIRED: u64 = 28;
    pub const GRID: u64 = 29;
}

#[derive(Debug, PartialEq)]
pub struct Refused {
    pub number: u64,
    pub place: u64,
    pub which: u64,
}

pub fn refuse<T>(number: u64, place: usize) -> Result<T, Refused> {
    Err(Refused { number, place: place as u64, which: 0 })
}

pub fn u32_at(bytes: &[u8], at: usize) -> u32 {
    u32::from_le_bytes(bytes[at..at + 4].try_into().unwrap())
}

pub fn u64_at(bytes: &[u8], at: usize) -> u64 {
    u64::from_le_bytes(bytes[at..at + 8].try_into().unwrap())
}

/// A minimum and a maximum.
#[derive(Clone, Copy)]
struct Ends<T>(T, T);

impl<T: Number> Ends<T> {
    /// The refusal's number of a window's range, or nothing.
    fn fault(&self) -> Option<u64> {
        if self.0 <= self.1 {
            None
        } else if self.0 > self.1 {
            Some(refusal::REVERSED)
        } else {
            Some(refusal::NOT_A_NUMBER)
        }
    }

    /// Of a stored range, which must be finite.
    fn stored_fault(&self) -> Option<u64> {
        if T::finite_in_order(self.0, self.1) { None } else { Some(self.unsound()) }
    }

    /// The number of one that has a fault, apart from the loop over boxes.
    #[cold]
    #[inline(never)]
    fn unsound(&self) -> u64 {
        match self.fault() {
            Some(refusal::NOT_A_NUMBER) => refusal::NOT_A_NUMBER,
            _ if self.0.infinite() || self.1.infinite() => refusal::INFINITE,
            _ => refusal::REVERSED,
        }
    }

    fn meets(&self, other: &Ends<T>) -> bool {
        self.0 <= other.1 && other.0 <= self.1
    }
}

/// A number of one of the kinds, in bytes.
trait Number: PartialOrd + Copy {
    fn ends(bytes: &[u8]) -> Ends<Self>;

    /// Both are finite, and the first is at most the second.
    fn finite_in_order(low: Self, high: Self) -> bool;

    fn infinite(self) -> bool;

    fn put(ends: Ends<Self>, bytes: &mut [u8]);
}

macro_rules! number {
    ($($t:ty: $finite_in_order:expr, $infinite:expr;)*) => {
        $(impl Number for $t {
            fn ends(bytes: &[u8]) -> Ends<$t> {
                let (low, high) = bytes[..2 * size_of::<$t>()].split_at(size_of::<$t>());
                Ends(<$t>::from_le_bytes(low.try_into().unwrap()), <$t>::from_le_bytes(high.try_into().unwrap()))
            }

            fn finite_in_order(low: $t, high: $t) -> bool {
                $finite_in_order(low, high)
            }

            fn infinite(self) -> bool {
                $infinite(self)
            }

            fn put(ends: Ends<$t>, bytes: &mut [u8]) {
                let (low, high) = bytes[..2 * size_of::<$t>()].split_at_mut(size_of::<$t>());
                low.copy_from_slice(&ends.0.to_le_bytes());
                high.copy_from_slice(&ends.1.to_le_bytes());
            }
        })*
    };
}

number! {
    i32: |low, high| low <= high, |_| false;
    i64: |low, high| low <= high, |_| false;
    f32: |low, high| f32::NEG_INFINITY < low && low <= high && high < f32::INFINITY, f32::is_infinite;
    f64: |low, high| f64::NEG_INFINITY < low && low <= high && high < f64::INFINITY, f64::is_infinite;
    u64: |low, high| low <= high, |_| false;
}

impl Kind {
    pub const ALL: [Kind; 5] = [Kind::Int32, Kind::Int64, Kind::Float32, Kind::Float64, Kind::Uint64];
    /// Those that a dimension may have.
    pub const OF_DIMENSIONS: [Kind; 4] = [Kind::Int32, Kind::Int64, Kind::Float64, Kind::Uint64];

    fn of(number: u8) -> Option<Kind> {
        match number {
            k if k == Kind::Int32 as u8 => Some(Kind::Int32),
            k if k == Kind::Int64 as u8 => Some(Kind::Int64),
            k if k == Kind::Float32 as u8 => Some(Kind::Float32),
            k if k == Kind::Float64 as u8 => Some(Kind::Float64),
            k if k == Kind::Uint64 as u8 => Some(Kind::Uint64),
            _ => None,
        }
    }

    /// Whether a stored range is in order and lies inside another, which has no fault: then it has none either.
    fn lies(self, inner: &[u8], outer: &[u8]) -> bool {
        fn one<T: Number>(inner: &[u8], outer: &[u8]) -> bool {
            let (range, outer) = (T::ends(inner), T::ends(outer));
            outer.0 <= range.0 && range.0 <= range.1 && range.1 <= outer.1
        }
        match self {
            Kind::Int32 => one::<i32>(inner, outer),
            Kind::Int64 => one::<i64>(inner, outer),
            Kind::Float32 => one::<f32>(inner, outer),
            Kind::Float64 => one::<f64>(inner, outer),
            Kind::Uint64 => one::<u64>(inner, outer),
        }
    }

    /// The least range around those that a row of boxes has at a place; of equal ends the first is kept.
    fn around(self, row: &[u8], width: usize, at: usize, to: &mut [u8]) {
        fn one<T: Number>(row: &[u8], width: usize, at: usize, to: &mut [u8]) {
            let mut least = T::ends(&row[at..]);
            for child in row.chunks_exact(width).skip(1) {
                let ends = T::ends(&child[at..]);
                if ends.0 < least.0 {
                    least.0 = ends.0;
                }
                if ends.1 > least.1 {
                    least.1 = ends.1;
                }
            }
            T::put(least, to);
        }
        match self {
            Kind::Int32 => one::<i32>(row, width, at, to),
            Kind::Int64 => one::<i64>(row, width, at, to),
            Kind::Float32 => one::<f32>(row, width, at, to),
            Kind::Float64 => one::<f64>(row, width, at, to),
            Kind::Uint64 => one::<u64>(row, width, at, to),
        }
    }

    /// Whether no range that the boxes have at a place has a fault.
    fn all_sound(self, boxes: &[u8], width: usize, at: usize) -> bool {
        fn one<T: Number>(boxes: &[u8], width: usize, at: usize) -> bool {
            boxes.chunks_exact(width).all(|bytes| {
                let ends = T::ends(&bytes[at..]);
                T::finite_in_order(ends.0, ends.1)
            })
        }
        match self {
            Kind::Int32 => one::<i32>(boxes, width, at),
            Kind::Int64 => one::<i64>(boxes, width, at),
            Kind::Float32 => one::<f32>(boxes, width, at),
            Kind::Float64 => one::<f64>(boxes, width, at),
            Kind::Uint64 => one::<u64>(boxes, width, at),
        }
    }

    fn range_bytes(self) -> usize {
        match self {
            Kind::Int32 => 8,
            Kind::Int64 => 16,
            Kind::Float32 => 8,
            Kind::Float64 => 16,
            Kind::Uint64 => 16,
        }
    }
}

#[derive(Clone, Copy)]
enum Range {
    Int32(Ends<i32>),
    Int64(Ends<i64>),
    Float32(Ends<f32>),
    Float64(Ends<f64>),
    Uint64(Ends<u64>),
}

impl Range {
    const NONE: Range = Range::Int64(Ends(0, 0));

    fn read(kind: Kind, bytes: &[u8]) -> Range {
        match kind {
            Kind::Int32 => Range::Int32(Number::ends(bytes)),
            Kind::Int64 => Range::Int64(Number::ends(bytes)),
            Kind::Float32 => Range::Float32(Number::ends(bytes)),
            Kind::Float64 => Range::Float64(Number::ends(bytes)),
            Kind::Uint64 => Range::Uint64(Number::ends(bytes)),
        }
    }

    fn bytes(&self) -> usize {
        match self {
            Range::Int32(_) => Kind::Int32.range_bytes(),
            Range::Int64(_) => Kind::Int64.range_bytes(),
            Range::Float32(_) => Kind::Float32.range_bytes(),
            Range::Float64(_) => Kind::Float64.range_bytes(),
            Range::Uint64(_) => Kind::Uint64.range_bytes(),
        }
    }

    fn fault(&self) -> Option<u64> {
        match self {
            Range::Int32(ends) => ends.fault(),
            Range::Int64(ends) => ends.fault(),
            Range::Float32(ends) => ends.fault(),
            Range::Float64(ends) => ends.fault(),
            Range::Uint64(ends) => ends.fault(),
        }
    }

    fn stored_fault(&self) -> Option<u64> {
        match self {
            Range::Int32(ends) => ends.stored_fault(),
            Range::Int64(ends) => ends.stored_fault(),
            Range::Float32(ends) => ends.stored_fault(),
            Range::Float64(ends) => ends.stored_fault(),
            Range::Uint64(ends) => ends.stored_fault(),
        }
    }

    /// Whether the range that is stored in the bytes, of the same kind, meets this one.
    fn met_by(&self, bytes: &[u8]) -> bool {
        match self {
            Range::Int32(ends) => Number::ends(bytes).meets(ends),
            Range::Int64(ends) => Number::ends(bytes).meets(ends),
            Range::Float32(ends) => Number::ends(bytes).meets(ends),
            Range::Float64(ends) => Number::ends(bytes).meets(ends),
            Range::Uint64(ends) => Number::ends(bytes).meets(ends),
        }
    }
}

/// A description that is inside the limits, and has no float32 dimension unless it is an old one.
struct Description {
    kinds: [Kind; 4],
    dimensions: usize,
    fields: u64,
    capacity: u64,
}

impl Description {
    fn new(numbers: &[u8], fields: u64, capacity: u64) -> Result<Description, Refused> {
        let d = Description::old(numbers, fields, capacity)?;
        match d.kinds().iter().position(|kind| *kind == Kind::Float32) {
            Some(dimension) => refuse(refusal::RETIRED, dimension),
            None => Ok(d),
        }
    }

    /// From before float32 was retired.
    fn old(numbers: &[u8], fields: u64, capacity: u64) -> Result<Description, Refused> {
        if !limits::DIMENSIONS.contains(&numbers.len()) || !limits::FIELDS.contains(&fields) || !limits::CAPACITY.contains(&capacity) {
            return refuse(refusal::DESCRIPTION, 0);
        }
        let mut d = Description { kinds: [Kind::Int64; 4], dimensions: numbers.len(), fields, capacity };
        for (kind, number) in d.kinds.iter_mut().zip(numbers) {
            match Kind::of(*number) {
                Some(known) => *kind = known,
                None => return refuse(refusal::DESCRIPTION, 0),
            }
        }
        Ok(d)
    }

    fn kinds(&self) -> &[Kind] {
        &self.kinds[..self.dimensions]
    }

    fn box_bytes(&self) -> usize {
        self.kinds().iter().map(|kind| kind.range_bytes()).sum()
    }

    /// A window of these kinds. Ranges whose bytes are not all there count as 0 to 0.
    fn window(&self, numbers: &[u8], ends: &[u8]) -> Result<[Range; 4], Refused> {
        if numbers.len() != self.dimensions {
            return refuse(refusal::WINDOW, 0);
        }
        let mut window = [Range::NONE; 4];
        let mut at = 0;
        for (i, (kind, number)) in self.kinds().iter().zip(numbers).enumerate() {
            if Kind::of(*number) != Some(*kind) {
                return refuse(refusal::WINDOW, i);
            }
            let to = at + kind.range_bytes();
            window[i] = Range::read(*kind, ends.get(at..to).unwrap_or(&[0; 16]));
            if let Some(number) = window[i].fault() {
                return refuse(number, i);
            }
            at = to;
        }
        Ok(window)
    }
}

/// Box counts and places of the levels, root first.
struct Shape {
    fanout: usize,
    levels: usize,
    counts: [usize; MOST_LEVELS],
    starts: [usize; MOST_LEVELS],
}

/// Those of the most tiles at the least fanout.
const MOST_LEVELS: usize = 25;

fn shape(tiles: usize, width: usize, body: &[u8]) -> Result<Shape, Refused> {
    let shape = front(tiles, width, body, body.len())?;
    let starts = shape.counts[..shape.levels].iter().zip(shape.starts);
    for (count, start) in starts {
        if u64_at(body, start - 8) != *count as u64 {
            return refuse(refusal::LEVELS, start - 8);
        }
    }
    Ok(shape)
}

/// The shape before the counts, of a body of so many bytes.
fn front(tiles: usize, width: usize, body: &[u8], length: usize) -> Result<Shape, Refused> {
    if length < 8 {
        return refuse(refusal::BYTES, length);
    }
    let fanout = u32_at(body, 0) as usize;
    if !limits::FANOUT.contains(&fanout) {
        return refuse(refusal::FANOUT, 0);
    }
    let mut shape = Shape { fanout, levels: 1, counts: [0; MOST_LEVELS], starts: [0; MOST_LEVELS] };
    let mut count = tiles;
    shape.counts[0] = count;
    while count > 1 {
        count = count.div_ceil(fanout);
        shape.counts[shape.levels] = count;
        shape.levels += 1;
    }
    shape.counts[..shape.levels].reverse();
    if u32_at(body, 4) as usize != shape.levels {
        return refuse(refusal::LEVELS, 4);
    }
    let boxes: usize = shape.counts.iter().sum();
    if length != 8 + 8 * shape.levels + width * boxes {
        return refuse(refusal::BYTES, length);
    }
    let mut at = 8;
    for level in 0..shape.levels {
        shape.starts[level] = at + 8;
        at += 8 + width * shape.counts[level];
    }
    Ok(shape)
}

fn meets(bytes: &[u8], window: &[Range]) -> bool {
    let mut at = 0;
    for range in window {
        if !range.met_by(&bytes[at..]) {
            return false;
        }
        at += range.bytes();
    }
    true
}

struct Walk<'a> {
    body: &'a [u8],
    window: &'a [Range],
    width: usize,
    shape: &'a Shape,
    out: &'a mut [u32],
    found: usize,
    looked: usize,
}

impl Walk<'_> {
    fn row(&mut self, level: usize, first: usize, len: usize) {
        let from = self.shape.starts[level] + first * self.width;
        let row = &self.body[from..from + len * self.width];
        self.looked += len;
        for (k, bytes) in (first..).zip(row.chunks_exact(self.width)) {
            if meets(bytes, self.window) {
                if level + 1 == self.shape.levels {
                    if let Some(place) = self.out.get_mut(self.found) {
                        *place = k as u32;
                    }
                    self.found += 1;
                } else {
                    let first = k * self.shape.fanout;
                    self.row(level + 1, first, self.shape.fanout.min(self.shape.counts[level + 1] - first));
                }
            }
        }
    }
}

/// The number found and the number looked at.
#[allow(clippy::too_many_arguments)]
#[inline(never)]
pub fn query(
    kinds: &[u8], fields: u64, capacity: u64, tiles: u64, tree: &[u8], window_kinds: &[u8], window_ends: &[u8], out: &mut [u32],
) -> Result<(u64, u64), Refused> {
    let d = Description::new(kinds, fields, capacity)?;
    if !limits::TILES.contains(&tiles) {
        return refuse(refusal::TILES, 0);
    }
    let window = d.window(window_kinds, window_ends)?;
    let width = d.box_bytes();
    let shape = shape(tiles as usize, width, tree)?;
    let mut walk = Walk { body: tree, window: &window[..d.dimensions], width, shape: &shape, out, found: 0, looked: 0 };
    walk.row(0, 0, 1);
    Ok((walk.found as u64, walk.looked as u64))
}

/// A footer's tiles, and the last one's cells.
pub fn cells(kinds: &[u8], fields: u64, capacity: u64, file_size: u64, bytes: &[u8]) -> Result<(u64, u64), Refused> {
    let d = Description::new(kinds, fields, capacity)?;
    let (tiles, domain) = footer(&d, file_size, bytes)?;
    Ok((tiles, u64_at(bytes, domain + d.box_bytes() + 8)))
}

/// The number of tiles of a footer, and where its domain starts.
fn footer(d: &Description, file_size: u64, bytes: &[u8]) -> Result<(u64, usize), Refused> {
    if bytes.len() < 12 {
        return refuse(refusal::BYTES, bytes.len());
    }
    if !limits::VERSION.contains(&u32_at(bytes, 0)) {
        return refuse(refusal::VERSION, 0);
    }
    let name = u64_at(bytes, 4);
    if !limits::NAME.contains(&name) {
        return refuse(refusal::NAME_SIZE, 4);
    }
    let fields = d.fields as usize;
    let total = 64 + name as usize + d.box_bytes() + 88 * fields;
    if bytes.len() != total || file_size < total as u64 {
        return refuse(refusal::BYTES, bytes.len());
    }
    let flag = |at: usize, set: Option<u64>| match (bytes[at], set) {
        (0, _) | (1, None) => Ok(()),
        (1, Some(number)) => refuse(number, at),
        _ => refuse(refusal::FLAG, at),
    };
    let mut at = 12 + name as usize;
    flag(at, Some(refusal::DENSE))?;
    flag(at + 1, Some(refusal::NULL_DOMAIN))?;
    at += 2;
    let domain = at;
    for kind in d.kinds() {
        if let Some(number) = Range::read(*kind, &bytes[at..]).stored_fault() {
            return refuse(number, at);
        }
        at += kind.range_bytes();
    }
    let tiles = u64_at(bytes, at);
    if !limits::TILES.contains(&tiles) {
        return refuse(refusal::TILES, at);
    }
    if !(1..=d.capacity).contains(&u64_at(bytes, at + 8)) {
        return refuse(refusal::LAST_CELLS, at + 8);
    }
    flag(at + 16, None)?;
    flag(at + 17, None)?;
    at += 18 + 24 * fields;
    for _ in 0..8 * fields + 3 {
        if u64_at(bytes, at) >= file_size - total as u64 {
            return refuse(refusal::OFFSET, at);
        }
        at += 8;
    }
    if u64_at(bytes, at) != total as u64 - 8 {
        return refuse(refusal::BYTES, bytes.len());
    }
    Ok((tiles, domain))
}

/// Tiles, fanout and levels.
#[inline(never)]
pub fn open(kinds: &[u8], fields: u64, capacity: u64, file_size: u64, footer_bytes: &[u8], tree: &[u8]) -> Result<(u64, u64, u64), Refused> {
    let d = Description::new(kinds, fields, capacity)?;
    let (tiles, domain) = footer(&d, file_size, footer_bytes)?;
    boxes(&d, tiles as usize, &footer_bytes[domain..], tree).map_err(|refused| Refused { which: 1, ..refused })
}

/// Every range of a stored box is sound, and the box lies inside another one that is, or the number for that is given.
fn check_box(kinds: &[Kind], bytes: &[u8], at: usize, outer: &[u8], number: u64) -> Result<(), Refused> {
    let mut place = 0;
    for kind in kinds {
        if !kind.lies(&bytes[place..], &outer[place..]) {
            return box_fault(kinds, bytes, at, number);
        }
        place += kind.range_bytes();
    }
    Ok(())
}

/// The fault of a box that has one, apart from the loop over boxes.
#[cold]
#[inline(never)]
fn box_fault(kinds: &[Kind], bytes: &[u8], at: usize, number: u64) -> Result<(), Refused> {
    let mut place = 0;
    for kind in kinds {
        if let Some(number) = Range::read(*kind, &bytes[place..]).stored_fault() {
            return refuse(number, at + place);
        }
        place += kind.range_bytes();
    }
    refuse(number, at)
}

fn boxes(d: &Description, tiles: usize, domain: &[u8], body: &[u8]) -> Result<(u64, u64, u64), Refused> {
    let width = d.box_bytes();
    let shape = shape(tiles, width, body)?;
    let level = |i: usize| &body[shape.starts[i]..shape.starts[i] + shape.counts[i] * width];
    check_box(d.kinds(), level(0), shape.starts[0], domain, refusal::OUTSIDE_DOMAIN)?;
    for i in 1..shape.levels {
        let mut at = shape.starts[i];
        for (parent, row) in level(i - 1).chunks_exact(width).zip(level(i).chunks(shape.fanout * width)) {
            for child in row.chunks_exact(width) {
                check_box(d.kinds(), child, at, parent, refusal::OUTSIDE_PARENT)?;
                at += width;
            }
        }
    }
    Ok((tiles as u64, shape.fanout as u64, shape.levels as u64))
}

/// The first fault of leaves that have one.
#[cold]
#[inline(never)]
fn first_fault<T>(d: &Description, leaves: &[u8]) -> Result<T, Refused> {
    let mut at = 0;
    for kind in d.kinds().iter().cycle() {
        if let Some(number) = Range::read(*kind, &leaves[at..]).stored_fault() {
            return refuse(number, at);
        }
        at += kind.range_bytes();
    }
    unreachable!("a description has dimensions")
}

/// Writes the whole tree of so many leaves, and answers its length: the leaves first, and then each level from the one below it.
#[inline(never)]
pub fn write_tree(kinds: &[u8], fields: u64, capacity: u64, tiles: u64, fanout: u64, leaves: &[u8], out: &mut [u8]) -> Result<u64, Refused> {
    let d = Description::new(kinds, fields, capacity)?;
    if !limits::TILES.contains(&tiles) {
        return refuse(refusal::TILES, 0);
    }
    let fanout = fanout as usize;
    if !limits::FANOUT.contains(&fanout) {
        return refuse(refusal::FANOUT, 0);
    }
    let (tiles, width) = (tiles as usize, d.box_bytes());
    if leaves.len() != tiles * width {
        return refuse(refusal::BYTES, leaves.len());
    }
    let mut at = 0;
    for kind in d.kinds() {
        if !kind.all_sound(leaves, width, at) {
            return first_fault(&d, leaves);
        }
        at += kind.range_bytes();
    }
    let mut counts = vec![tiles];
    while counts[0] > 1 {
        counts.insert(0, counts[0].div_ceil(fanout));
    }
    let length = 8 + counts.iter().map(|count| 8 + count * width).sum::<usize>();
    let Some(body) = out.get_mut(..length) else { return refuse(refusal::ROOM, 0) };
    body[..4].copy_from_slice(&(fanout as u32).to_le_bytes());
    body[4..8].copy_from_slice(&(counts.len() as u32).to_le_bytes());
    let mut start = length - leaves.len();
    body[start..].copy_from_slice(leaves);
    for level in (0..counts.len()).rev() {
        body[start - 8..start].copy_from_slice(&(counts[level] as u64).to_le_bytes());
        if level > 0 {
            let above = start - 8 - counts[level - 1] * width;
            let (parents, below) = body[above..].split_at_mut(start - above);
            let rows = below[..counts[level] * width].chunks(fanout * width);
            for (parent, row) in parents.chunks_exact_mut(width).zip(rows) {
                let mut at = 0;
                for kind in d.kinds() {
                    kind.around(row, width, at, &mut parent[at..]);
                    at += kind.range_bytes();
                }
            }
            start = above;
        }
    }
    Ok(length as u64)
}

/// A tree that arrives in blocks: the first eight bytes, then level by level a count and its boxes, each item from the block where it is whole,
/// and through `held` where it is cut. Inner boxes go to `work` in body order.
struct Parts<'a> {
    d: &'a Description,
    domain: &'a [u8],
    tiles: usize,
    stated: usize,
    shape: Option<Shape>,
    work: &'a mut [u8],
    held: [u8; 64],
    kept: usize,
    done: usize,
    level: usize,
    counted: bool,
    index: usize,
    parents: usize,
    own: usize,
    fault: Result<(), Refused>,
}

impl Parts<'_> {
    fn block(&mut self, mut bytes: &[u8]) -> Result<(), Refused> {
        let width = self.d.box_bytes();
        while !bytes.is_empty() {
            let item = if self.counted { width } else { 8 };
            if self.kept > 0 || bytes.len() < item {
                let more = bytes.len().min(item - self.kept);
                self.held[self.kept..self.kept + more].copy_from_slice(&bytes[..more]);
                (self.kept, bytes) = (self.kept + more, &bytes[more..]);
                if self.kept == item {
                    self.kept = 0;
                    let held = self.held;
                    self.items(&held[..item], width)?;
                }
            } else {
                let left = self.shape.as_ref().map_or(0, |s| s.counts[self.level]) - self.index;
                let whole = if self.counted { left.min(bytes.len() / width) * width } else { 8 };
                self.items(&bytes[..whole], width)?;
                bytes = &bytes[whole..];
            }
        }
        Ok(())
    }

    fn items(&mut self, bytes: &[u8], width: usize) -> Result<(), Refused> {
        let at = self.done;
        self.done += bytes.len();
        let Some(shape) = &self.shape else {
            let shape = front(self.tiles, width, bytes, self.stated)?;
            let inner: usize = shape.counts[..shape.levels - 1].iter().sum();
            if self.work.len() < inner * width {
                return refuse(refusal::WORK, 0);
            }
            self.shape = Some(shape);
            return Ok(());
        };
        if !self.counted {
            self.counted = true;
            return if u64_at(bytes, 0) == shape.counts[self.level] as u64 { Ok(()) } else { refuse(refusal::LEVELS, at) };
        }
        if self.fault.is_ok() {
            self.fault = self.rows(shape, bytes, at, width);
        }
        if self.level + 1 < shape.levels {
            let to = self.own + self.index * width;
            self.work[to..to + bytes.len()].copy_from_slice(bytes);
        }
        self.index += bytes.len() / width;
        if self.index == shape.counts[self.level] && self.level + 1 < shape.levels {
            (self.parents, self.own) = (self.own, self.own + self.index * width);
            (self.level, self.index, self.counted) = (self.level + 1, 0, false);
        }
        Ok(())
    }

    fn rows(&self, shape: &Shape, mut bytes: &[u8], mut at: usize, width: usize) -> Result<(), Refused> {
        if self.level == 0 {
            return check_box(self.d.kinds(), bytes, at, self.domain, refusal::OUTSIDE_DOMAIN);
        }
        let (mut parent, mut left) = (self.index / shape.fanout, shape.fanout - self.index % shape.fanout);
        while !bytes.is_empty() {
            let (row, rest) = bytes.split_at(bytes.len().min(left * width));
            let outer = &self.work[self.parents + parent * width..][..width];
            for child in row.chunks_exact(width) {
                check_box(self.d.kinds(), child, at, outer, refusal::OUTSIDE_PARENT)?;
                at += width;
            }
            (parent, left, bytes) = (parent + 1, shape.fanout, rest);
        }
        Ok(())
    }
}

/// Tiles, fanout and levels of a tree in blocks of a given size.
#[allow(clippy::too_many_arguments)]
#[inline(never)]
pub fn open_parts(
    kinds: &[u8], fields: u64, capacity: u64, file_size: u64, footer_bytes: &[u8], tree: &[u8], size: usize, work: &mut [u8],
) -> Result<(u64, u64, u64), Refused> {
    let d = Description::new(kinds, fields, capacity)?;
    let (tiles, domain) = footer(&d, file_size, footer_bytes)?;
    let mut parts = Parts {
        d: &d, domain: &footer_bytes[domain..], tiles: tiles as usize, stated: tree.len(), shape: None, work, held: [0; 64], kept: 0, done: 0,
        level: 0, counted: false, index: 0, parents: 0, own: 0, fault: Ok(()),
    };
    for block in tree.chunks(size) {
        parts.block(block)?;
    }
    parts.fault?;
    let shape = parts.shape.expect("a body has eight bytes");
    Ok((tiles, shape.fanout as u64, shape.levels as u64))
}

fn entries(tiles: u64, list: &[u8]) -> Result<impl Iterator<Item = (usize, u64)> + '_, Refused> {
    if !limits::TILES.contains(&tiles) {
        return refuse(refusal::TILES, 0);
    }
    if list.len() < 8 {
        return refuse(refusal::BYTES, list.len());
    }
    if u64_at(list, 0) != tiles {
        return refuse(refusal::COUNT, 0);
    }
    if list.len() as u64 != 8 + 8 * tiles {
        return refuse(refusal::BYTES, list.len());
    }
    Ok(list[8..].chunks_exact(8).enumerate().map(|(i, bytes)| (8 + 8 * i, u64::from_le_bytes(bytes.try_into().unwrap()))))
}

#[inline(never)]
pub fn offsets(tiles: u64, size: u64, list: &[u8]) -> Result<u64, Refused> {
    let mut entries = entries(tiles, list)?;
    let mut before = 0;
    if entries.next().is_some_and(|(_, first)| first != 0 || first >= size) {
        return refuse(refusal::TILE_OFFSETS, 8);
    }
    for (at, offset) in entries {
        if offset <= before || offset >= size {
            return refuse(refusal::TILE_OFFSETS, at);
        }
        before = offset;
    }
    Ok(tiles)
}

#[inline(never)]
pub fn var_offsets(tiles: u64, size: u64, list: &[u8]) -> Result<u64, Refused> {
    let mut entries = entries(tiles, list)?;
    let mut before = 0;
    if entries.next().is_some_and(|(_, first)| first != 0) {
        return refuse(refusal::TILE_OFFSETS, 8);
    }
    for (at, offset) in entries {
        if offset < before || offset > size {
            return refuse(refusal::TILE_OFFSETS, at);
        }
        before = offset;
    }
    Ok(tiles)
}

#[inline(never)]
pub fn sizes(tiles: u64, list: &[u8]) -> Result<u64, Refused> {
    let mut sum = 0u64;
    for (at, size) in entries(tiles, list)? {
        match sum.checked_add(size) {
            Some(more) => sum = more,
            None => return refuse(refusal::SUM, at),
        }
    }
    Ok(sum)
}
