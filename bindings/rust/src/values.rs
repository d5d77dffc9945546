//! Mins, maxes, sums and null counts of a field's tiles.

use crate::ffi::{self, Asked};
use crate::places::{
    NULL_COUNTS_TILES, NULL_COUNTS_WHICH, RANGES_TILES, RANGES_WHICH, VALUES_TILES, VAR_VALUE_LENGTH, VAR_VALUE_START,
};
use crate::tiles::tiles;
use crate::{Description, Kind, Range, Refused, Which};
use std::fmt;

/// What mins and maxes that are lent together are called.
const MINS_AND_MAXES: [&str; 2] = ["the mins", "the maxes"];

/// A number of a fixed kind: a tile's min or its max.
#[derive(Clone, Copy, Debug, PartialEq)]
pub enum Value {
    /// A 32-bit integer.
    Int32(i32),
    /// A 64-bit integer.
    Int64(i64),
    /// A 32-bit float.
    Float32(f32),
    /// A 64-bit float.
    Float64(f64),
    /// A 64-bit integer without a sign.
    Uint64(u64),
}

impl Value {
    /// The number that has this bit pattern, one of 4 bytes in the low half.
    fn from_bits(kind: Kind, bits: u64) -> Value {
        match kind {
            Kind::Int32 => Value::Int32(bits as i32),
            Kind::Int64 => Value::Int64(bits as i64),
            Kind::Float32 => Value::Float32(f32::from_bits(bits as u32)),
            Kind::Float64 => Value::Float64(f64::from_bits(bits)),
            Kind::Uint64 => Value::Uint64(bits),
        }
    }

    /// The kind of the number.
    pub fn kind(&self) -> Kind {
        match self {
            Value::Int32(_) => Kind::Int32,
            Value::Int64(_) => Kind::Int64,
            Value::Float32(_) => Kind::Float32,
            Value::Float64(_) => Kind::Float64,
            Value::Uint64(_) => Kind::Uint64,
        }
    }
}

/// The number alone, as an end of a [`Range`] is written.
impl fmt::Display for Value {
    fn fmt(&self, f: &mut fmt::Formatter<'_>) -> fmt::Result {
        match self {
            Value::Int32(number) => fmt::Debug::fmt(number, f),
            Value::Int64(number) => fmt::Debug::fmt(number, f),
            Value::Float32(number) => fmt::Debug::fmt(number, f),
            Value::Float64(number) => fmt::Debug::fmt(number, f),
            Value::Uint64(number) => fmt::Debug::fmt(number, f),
        }
    }
}

/// Accepted mins or maxes of a field of a fixed kind. [`tile_values`] makes it.
#[derive(Clone, Copy)]
pub struct TileValues<'a> {
    kind: Kind,
    tiles: u64,
    body: &'a [u8],
}

tiles!(TileValues, Value, "The value", |values, tile| Value::from_bits(values.kind, values.bits(tile)));

impl TileValues<'_> {
    /// The kind of the values.
    pub fn kind(&self) -> Kind {
        self.kind
    }

    fn bits(&self, tile: u64) -> u64 {
        ffi::value_at(self.kind, self.tiles, self.body, tile)
    }
}

/// Checks the mins, or the maxes, of a field of a fixed kind.
///
/// ```
/// use tussockbell::{tile_values, Kind, Value};
///
/// let mut mins = 2u64.to_le_bytes().to_vec();
/// mins.extend([-3i32, 40].map(i32::to_le_bytes).concat());
/// mins.extend([0; 8]);
/// let values = tile_values(Kind::Int32, 2, &mins)?;
/// assert_eq!(values.get(0), Some(Value::Int32(-3)));
/// assert_eq!(values.get(2), None);
///
/// let refused = tile_values(Kind::Int64, 2, &mins).unwrap_err();
/// assert_eq!(refused.to_string(), "refused 2 at 24: byte count or length field wrong");
/// # Ok::<(), tussockbell::Refused>(())
/// ```
pub fn tile_values(kind: Kind, tiles: u64, body: &[u8]) -> Result<TileValues<'_>, Refused> {
    let answer = ffi::values(kind, tiles, body);
    Refused::check(&answer, Which::First)?;
    Ok(TileValues { kind, tiles: answer[VALUES_TILES], body })
}

/// Accepted mins and maxes of a field of a fixed kind: in each tile the min is at most the max. [`tile_ranges`] makes it.
#[derive(Clone, Copy)]
pub struct TileRanges<'a> {
    tiles: u64,
    mins: TileValues<'a>,
    maxes: TileValues<'a>,
}

tiles!(TileRanges, Range, "The range", |ranges, tile| {
    Range::from_bits(ranges.mins.kind, ranges.mins.bits(tile), ranges.maxes.bits(tile))
});

impl<'a> TileRanges<'a> {
    /// The kind of mins and maxes.
    pub fn kind(&self) -> Kind {
        self.mins.kind
    }

    /// The mins by themselves.
    pub fn mins(&self) -> TileValues<'a> {
        self.mins
    }

    /// The maxes by themselves.
    pub fn maxes(&self) -> TileValues<'a> {
        self.maxes
    }
}

/// Checks the mins and the maxes of a field of a fixed kind together: the mins, the maxes, and then that no min is above
/// its max. A refusal tells which of the two its place counts in.
///
/// ```
/// use tussockbell::{tile_ranges, Kind, Range};
///
/// let body = |value: f64| [1u64.to_le_bytes(), value.to_le_bytes(), [0; 8]].concat();
/// let (low, high) = (body(0.5), body(2.0));
/// assert_eq!(tile_ranges(Kind::Float64, 1, &low, &high)?.get(0), Some(Range::Float64(0.5, 2.0)));
///
/// let refused = tile_ranges(Kind::Float64, 1, &high, &low).unwrap_err();
/// assert_eq!(refused.to_string(), "refused 9 at 8 of the maxes: minimum above maximum");
/// # Ok::<(), tussockbell::Refused>(())
/// ```
pub fn tile_ranges<'a>(kind: Kind, tiles: u64, mins: &'a [u8], maxes: &'a [u8]) -> Result<TileRanges<'a>, Refused> {
    let answer = ffi::ranges(kind, tiles, mins, maxes);
    Refused::check_two(&answer, RANGES_WHICH, MINS_AND_MAXES)?;
    let tiles = answer[RANGES_TILES];
    let [mins, maxes] = [mins, maxes].map(|body| TileValues { kind, tiles, body });
    Ok(TileRanges { tiles, mins, maxes })
}

/// Accepted mins or maxes of a var field. [`var_tile_values`] makes it.
#[derive(Clone, Copy)]
pub struct VarValues<'a> {
    tiles: u64,
    body: &'a [u8],
}

tiles!(VarValues, &'a [u8], "The value, which is part of the body,", |values, tile| {
    let part = ffi::var_value_at(values.tiles, values.body, tile);
    &values.body[part[VAR_VALUE_START] as usize..][..part[VAR_VALUE_LENGTH] as usize]
});

/// Checks the mins, or the maxes, of a var field.
///
/// ```
/// use tussockbell::var_tile_values;
///
/// let body = [&[2u64, 0, 3, 5].map(u64::to_le_bytes).concat()[..], b"abcde"].concat();
/// let values = var_tile_values(2, &body)?;
/// assert_eq!(values.iter().collect::<Vec<_>>(), [&b"abc"[..], b"de"]);
/// # Ok::<(), tussockbell::Refused>(())
/// ```
pub fn var_tile_values(tiles: u64, body: &[u8]) -> Result<VarValues<'_>, Refused> {
    let answer = ffi::var_values(tiles, body);
    Refused::check(&answer, Which::First)?;
    Ok(VarValues { tiles: answer[VALUES_TILES], body })
}

/// Checks the mins and the maxes of a var field together, whose values are not compared.
///
/// ```
/// use tussockbell::var_tile_ranges;
///
/// let body = |value: &[u8]| [&[1, 0, value.len() as u64].map(u64::to_le_bytes).concat()[..], value].concat();
/// let (low, high) = (body(b"ab"), body(b"b"));
/// let [mins, maxes] = var_tile_ranges(1, &low, &high)?;
/// assert_eq!((mins.get(0), maxes.get(0)), (Some(&b"ab"[..]), Some(&b"b"[..])));
///
/// let refused = var_tile_ranges(1, &low, &high[..24]).unwrap_err();
/// assert_eq!(refused.to_string(), "refused 2 at 24 of the maxes: byte count or length field wrong");
/// # Ok::<(), tussockbell::Refused>(())
/// ```
pub fn var_tile_ranges<'a>(tiles: u64, mins: &'a [u8], maxes: &'a [u8]) -> Result<[VarValues<'a>; 2], Refused> {
    let answer = ffi::var_ranges(tiles, mins, maxes);
    Refused::check_two(&answer, RANGES_WHICH, MINS_AND_MAXES)?;
    Ok([mins, maxes].map(|body| VarValues { tiles: answer[RANGES_TILES], body }))
}

/// Accepted sums, raw 64-bit values: what they stand for follows from the field, so that [`signed`](Self::signed) and
/// [`real`](Self::real) read them as such. [`tile_sums`] makes it.
#[derive(Clone, Copy)]
pub struct TileSums<'a> {
    tiles: u64,
    body: &'a [u8],
}

tiles!(TileSums, u64, "The sum", |sums, tile| ffi::sum_at(sums.tiles, sums.body, tile));

impl<'a> TileSums<'a> {
    /// The sums of a field of signed integers, which TileDB adds up in an `i64`.
    ///
    /// ```
    /// let body = [2u64, 7, u64::MAX].map(u64::to_le_bytes).concat();
    /// assert_eq!(tussockbell::tile_sums(2, &body)?.signed().collect::<Vec<i64>>(), [7, -1]);
    /// # Ok::<(), tussockbell::Refused>(())
    /// ```
    pub fn signed(&self) -> impl DoubleEndedIterator<Item = i64> + ExactSizeIterator + 'a {
        self.iter().map(|sum| sum as i64)
    }

    /// The sums of a field of floats, which TileDB adds up in an `f64`.
    ///
    /// ```
    /// let body = [1u64, 2.5f64.to_bits()].map(u64::to_le_bytes).concat();
    /// assert_eq!(tussockbell::tile_sums(1, &body)?.real().collect::<Vec<f64>>(), [2.5]);
    /// # Ok::<(), tussockbell::Refused>(())
    /// ```
    pub fn real(&self) -> impl DoubleEndedIterator<Item = f64> + ExactSizeIterator + 'a {
        self.iter().map(f64::from_bits)
    }
}

/// Checks the sums of a field's tiles.
///
/// ```
/// let body = [2u64, 7, u64::MAX].map(u64::to_le_bytes).concat();
/// let sums = tussockbell::tile_sums(2, &body)?;
/// assert_eq!(sums.get(1).map(|sum| sum as i64), Some(-1));
/// # Ok::<(), tussockbell::Refused>(())
/// ```
pub fn tile_sums(tiles: u64, body: &[u8]) -> Result<TileSums<'_>, Refused> {
    let answer = ffi::sums(tiles, body);
    Refused::check(&answer, Which::First)?;
    Ok(TileSums { tiles: answer[VALUES_TILES], body })
}

/// Accepted null counts: of each tile at most its cells. [`null_counts`] makes it.
#[derive(Clone, Copy)]
pub struct NullCounts<'a> {
    tiles: u64,
    body: &'a [u8],
}

tiles!(NullCounts, u64, "The null count", |counts, tile| ffi::sum_at(counts.tiles, counts.body, tile));

/// Checks the null counts of a field's tiles, with the footer, which says how many tiles there are and how many cells
/// each has. A refusal of the footer comes first; one of the body counts in the second.
///
/// ```
/// # use tussockbell::{null_counts, Description, Kind};
/// # let footer = std::fs::read("../../tests/fixtures/sample/footer")?;
/// # let description = Description { kinds: &[Kind::Int32], fields: 1, capacity: 32 };
/// // tiles of 32, 32 and 5 cells
/// let body = [3u64, 0, 32, 5].map(u64::to_le_bytes).concat();
/// assert_eq!(null_counts(&description, 1166, &footer, &body)?.get(2), Some(5));
///
/// let body = [3u64, 0, 32, 6].map(u64::to_le_bytes).concat();
/// let refused = null_counts(&description, 1166, &footer, &body).unwrap_err();
/// assert_eq!(refused.to_string(), "refused 27 at 24 of the null counts: a null count above its tile's cells");
/// # Ok::<(), Box<dyn std::error::Error>>(())
/// ```
pub fn null_counts<'a>(
    description: &Description,
    file_size: u64,
    footer: &[u8],
    body: &'a [u8],
) -> Result<NullCounts<'a>, Refused> {
    let answer = ffi::null_counts(Asked { description: *description, file_size, footer }, body);
    Refused::check_two(&answer, NULL_COUNTS_WHICH, ["the footer", "the null counts"])?;
    Ok(NullCounts { tiles: answer[NULL_COUNTS_TILES], body })
}
