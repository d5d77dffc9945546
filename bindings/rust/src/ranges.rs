//! Kinds, descriptions, ranges, and a window as the library takes it.

use crate::Refused;

/// The kind of a dimension, by TileDB's own Datatype number.
#[derive(Clone, Copy, Debug, PartialEq, Eq, Hash)]
#[repr(u8)]
pub enum Kind {
    /// 32-bit integers, two's complement.
    Int32 = 0,
    /// 64-bit integers, two's complement.
    Int64 = 1,
    /// 32-bit floats, IEEE 754: a field may have them, and old dimensions do, which only
    /// [`convert_tree`](crate::convert_tree) and [`convert_footer`](crate::convert_footer) take.
    Float32 = 2,
    /// 64-bit floats, IEEE 754.
    Float64 = 3,
    /// 64-bit integers without a sign.
    Uint64 = 10,
}

impl Kind {
    pub(crate) const ALL: [Kind; 5] = [Kind::Int32, Kind::Int64, Kind::Float32, Kind::Float64, Kind::Uint64];

    /// The bytes of a range.
    const fn range_bytes(self) -> usize {
        match self {
            Kind::Int32 => 8,
            Kind::Int64 => 16,
            Kind::Float32 => 8,
            Kind::Float64 => 16,
            Kind::Uint64 => 16,
        }
    }
}

/// The kind of a Datatype number. Any other number is refused as a description with it would be.
///
/// ```
/// use tussockbell::{Kind, Refused};
///
/// assert_eq!(Kind::try_from(2), Ok(Kind::Float32));
/// assert_eq!(Kind::try_from(10), Ok(Kind::Uint64));
/// assert_eq!(Kind::try_from(4).unwrap_err().number, Refused::DESCRIPTION);
/// ```
impl TryFrom<u8> for Kind {
    type Error = Refused;

    fn try_from(number: u8) -> Result<Kind, Refused> {
        Kind::ALL.into_iter().find(|kind| *kind as u8 == number).ok_or(Refused::NO_DESCRIPTION)
    }
}

/// What has to be known of an array to read its fragments.
///
/// It may hold any values: each function checks all of it, and refuses one outside the limits with
/// [`Refused::DESCRIPTION`] at 0, and one with a float32 dimension with [`Refused::RETIRED`] at the first of them. The
/// constants are the limits, of the description and of what is read.
#[derive(Clone, Copy, Debug, PartialEq, Eq, Hash)]
pub struct Description<'a> {
    /// The kind of each dimension.
    pub kinds: &'a [Kind],
    /// The entries of each per-field list of a footer.
    pub fields: u64,
    /// The cells of a full tile.
    pub capacity: u64,
}

macro_rules! limits {
    ($($least:ident $most:ident $what:literal $from:literal $to:literal;)*) => {
        impl Description<'_> {
            $(
                #[doc = concat!("The least ", $what, ": ", $from, ".")]
                pub const $least: u64 = $from;
                #[doc = concat!("The most ", $what, ": ", $to, ".")]
                pub const $most: u64 = $to;
            )*
        }
    };
}

limits! {
    LEAST_DIMENSIONS MOST_DIMENSIONS "dimensions" 1 4;
    LEAST_FIELDS MOST_FIELDS "entries of each per-field list" 1 64;
    LEAST_CAPACITY MOST_CAPACITY "cells of a full tile" 1 1_000_000_000;
    LEAST_VERSION MOST_VERSION "that a footer's version may be" 16 21;
    LEAST_NAME MOST_NAME "bytes of the schema name" 1 255;
    LEAST_TILES MOST_TILES "tiles" 1 16_777_216;
    LEAST_FANOUT MOST_FANOUT "that a tree's fanout may be" 2 1_024;
}

/// One side of a window or of a domain: a minimum and a maximum, both of them in the range.
///
/// Rust's own inclusive ranges become one, of the kind that their ends have.
///
/// ```
/// use tussockbell::Range;
///
/// assert_eq!(Range::from(12..=21), Range::Int32(12, 21));
/// assert_eq!(Range::from(-1.5..=2.5), Range::Float64(-1.5, 2.5));
/// assert_eq!(Range::from(7u64..), Range::Uint64(7, u64::MAX));
/// assert_eq!(Range::from(..=0i64), Range::Int64(i64::MIN, 0));
/// assert_eq!(Range::Float64(-1.5, 2.0).to_string(), "-1.5:2.0");
/// ```
#[derive(Clone, Copy, Debug, PartialEq)]
pub enum Range {
    /// A range of 32-bit integers.
    Int32(i32, i32),
    /// A range of 64-bit integers.
    Int64(i64, i64),
    /// A range of 32-bit floats.
    Float32(f32, f32),
    /// A range of 64-bit floats.
    Float64(f64, f64),
    /// A range of 64-bit integers without a sign.
    Uint64(u64, u64),
}

impl Range {
    /// The kind of both ends.
    pub fn kind(&self) -> Kind {
        match self {
            Range::Int32(..) => Kind::Int32,
            Range::Int64(..) => Kind::Int64,
            Range::Float32(..) => Kind::Float32,
            Range::Float64(..) => Kind::Float64,
            Range::Uint64(..) => Kind::Uint64,
        }
    }

    /// The range whose ends have these bit patterns, an end of 4 bytes in the low half.
    pub(crate) fn from_bits(kind: Kind, low: u64, high: u64) -> Range {
        match kind {
            Kind::Int32 => Range::Int32(low as i32, high as i32),
            Kind::Int64 => Range::Int64(low as i64, high as i64),
            Kind::Float32 => Range::Float32(f32::from_bits(low as u32), f32::from_bits(high as u32)),
            Kind::Float64 => Range::Float64(f64::from_bits(low), f64::from_bits(high)),
            Kind::Uint64 => Range::Uint64(low, high),
        }
    }

    /// The bit patterns of the minimum and the maximum, in the low bytes where an end has 4.
    fn to_bits(self) -> [u64; 2] {
        match self {
            Range::Int32(low, high) => [low as u64, high as u64],
            Range::Int64(low, high) => [low as u64, high as u64],
            Range::Float32(low, high) => [low.to_bits().into(), high.to_bits().into()],
            Range::Float64(low, high) => [low.to_bits(), high.to_bits()],
            Range::Uint64(low, high) => [low, high],
        }
    }
}

/// One side more than any description that is not refused has. So a window of even more sides is refused like its first
/// five: with 1 or 10, or else with 19 at 0 since the number of sides differs, before any side is looked at.
const MOST_SIDES: usize = Description::MOST_DIMENSIONS as usize + 1;

/// As many as a range of any kind has: both ends' patterns.
const RANGE_BYTES: usize = std::mem::size_of::<[u64; 2]>();

/// A window as the library takes it: the kinds of its sides, and their ends, little-endian, one after the other.
#[derive(Clone, Copy)]
pub(crate) struct Window {
    kinds: [Kind; MOST_SIDES],
    sides: usize,
    ends: [u8; RANGE_BYTES * MOST_SIDES],
    bytes: usize,
}

impl Window {
    pub(crate) fn new(sides: &[Range]) -> Window {
        let (kinds, ends) = ([Kind::Int32; MOST_SIDES], [0; RANGE_BYTES * MOST_SIDES]);
        let mut window = Window { kinds, sides: 0, ends, bytes: 0 };
        for side in sides.iter().take(MOST_SIDES) {
            window.kinds[window.sides] = side.kind();
            window.sides += 1;
            for end in side.to_bits() {
                let bytes = &end.to_le_bytes()[..side.kind().range_bytes() / 2];
                window.ends[window.bytes..][..bytes.len()].copy_from_slice(bytes);
                window.bytes += bytes.len();
            }
        }
        window
    }

    pub(crate) fn kinds(&self) -> &[Kind] {
        &self.kinds[..self.sides]
    }

    pub(crate) fn ends(&self) -> &[u8] {
        &self.ends[..self.bytes]
    }
}
