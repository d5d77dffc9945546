//! Kinds, ranges and windows as text, and ranges from Rust's own.

use crate::{Description, Kind, Range, Refused};
use std::fmt;
use std::ops::{RangeFrom, RangeInclusive, RangeToInclusive};
use std::str::FromStr;

impl Kind {
    /// TileDB's name of the kind, in lower case.
    pub const fn name(self) -> &'static str {
        match self {
            Kind::Int32 => "int32",
            Kind::Int64 => "int64",
            Kind::Float32 => "float32",
            Kind::Float64 => "float64",
            Kind::Uint64 => "uint64",
        }
    }
}

impl fmt::Display for Kind {
    fn fmt(&self, f: &mut fmt::Formatter<'_>) -> fmt::Result {
        f.pad(self.name())
    }
}

/// The kind of a Datatype name, in lower or in upper case. Any other name is refused as a description with it would be.
///
/// ```
/// use tussockbell::{Kind, Refused};
///
/// assert_eq!("int32".parse(), Ok(Kind::Int32));
/// assert_eq!("UINT64".parse(), Ok(Kind::Uint64));
/// assert_eq!("int16".parse::<Kind>().unwrap_err().number, Refused::DESCRIPTION);
/// assert_eq!(Kind::Float64.to_string(), "float64");
/// ```
impl FromStr for Kind {
    type Err = Refused;

    fn from_str(text: &str) -> Result<Kind, Refused> {
        Kind::ALL.into_iter().find(|kind| kind.name().eq_ignore_ascii_case(text)).ok_or(Refused::NO_DESCRIPTION)
    }
}

/// Why a text is no window of a description.
#[derive(Clone, Debug, PartialEq, Eq)]
#[non_exhaustive]
pub enum WindowError {
    /// There are not as many sides as dimensions.
    Sides {
        /// As many as the text has.
        given: usize,
        /// As many as the description has.
        expected: usize,
    },
    /// A side is not a minimum and a maximum of its kind with a colon between them.
    Side {
        /// The side's dimension, counted from 0.
        dimension: usize,
        /// The kind of that dimension.
        kind: Kind,
        /// The side as it stands in the text.
        text: String,
    },
}

impl fmt::Display for WindowError {
    fn fmt(&self, f: &mut fmt::Formatter<'_>) -> fmt::Result {
        match self {
            WindowError::Sides { given, expected } => write!(f, "the window has {given} sides, not {expected}"),
            WindowError::Side { dimension, kind, text } => {
                write!(f, "{text:?} is not MINIMUM:MAXIMUM of {kind}, at dimension {dimension}")
            }
        }
    }
}

impl std::error::Error for WindowError {}

impl Description<'_> {
    /// The window that a text says: for each dimension its minimum and its maximum with a colon between them, and
    /// commas between the dimensions.
    ///
    /// An end that is left off is open: it is the least or the largest that the kind has, which for floats is infinite.
    /// What [`Range`] is displayed as can be read again. Whether a window is refused, a query says: a minimum above its
    /// maximum is read as it stands.
    ///
    /// ```
    /// use tussockbell::{Description, Kind, Range};
    ///
    /// let description = Description { kinds: &[Kind::Int32, Kind::Float64], fields: 1, capacity: 32 };
    /// let window = description.window("0:10,-1.5:2.5")?;
    /// assert_eq!(window, [Range::Int32(0, 10), Range::Float64(-1.5, 2.5)]);
    /// assert_eq!(description.window("7:, :")?, [Range::from(7..), Range::Float64(f64::NEG_INFINITY, f64::INFINITY)]);
    ///
    /// let error = description.window("0:10,low:2.5").unwrap_err();
    /// assert_eq!(error.to_string(), "\"low:2.5\" is not MINIMUM:MAXIMUM of float64, at dimension 1");
    /// # Ok::<(), tussockbell::WindowError>(())
    /// ```
    pub fn window(&self, text: &str) -> Result<Vec<Range>, WindowError> {
        let sides: Vec<&str> = text.split(',').collect();
        if sides.len() != self.kinds.len() {
            return Err(WindowError::Sides { given: sides.len(), expected: self.kinds.len() });
        }
        let side = |(dimension, (&kind, text)): (usize, (&Kind, &str))| {
            range(kind, text).ok_or_else(|| WindowError::Side { dimension, kind, text: text.into() })
        };
        self.kinds.iter().zip(sides).enumerate().map(side).collect()
    }
}

/// An end as it is written, or the one that stands for none.
fn end<T: FromStr>(text: &str, open: T) -> Option<T> {
    match text.trim() {
        "" => Some(open),
        written => written.parse().ok(),
    }
}

macro_rules! ranges {
    ($($kind:ident $number:ident $least:ident $most:ident;)*) => {
        $(
            #[doc = concat!("Both ends of a range of `", stringify!($number), "` that was not yet iterated over.")]
            impl From<RangeInclusive<$number>> for Range {
                fn from(range: RangeInclusive<$number>) -> Range {
                    let (low, high) = range.into_inner();
                    Range::$kind(low, high)
                }
            }

            #[doc = concat!("From a minimum to [`", stringify!($number), "::", stringify!($most), "`].")]
            impl From<RangeFrom<$number>> for Range {
                fn from(range: RangeFrom<$number>) -> Range {
                    Range::$kind(range.start, $number::$most)
                }
            }

            #[doc = concat!("Up to a maximum, from [`", stringify!($number), "::", stringify!($least), "`].")]
            impl From<RangeToInclusive<$number>> for Range {
                fn from(range: RangeToInclusive<$number>) -> Range {
                    Range::$kind($number::$least, range.end)
                }
            }
        )*

        /// Minimum, colon and maximum, as [`Description::window`] reads them. Floats have a point or an exponent.
        impl fmt::Display for Range {
            fn fmt(&self, f: &mut fmt::Formatter<'_>) -> fmt::Result {
                match self {
                    $(Range::$kind(low, high) => write!(f, "{low:?}:{high:?}"),)*
                }
            }
        }

        /// The range of a kind that a text says.
        fn range(kind: Kind, text: &str) -> Option<Range> {
            let (low, high) = text.split_once(':')?;
            Some(match kind {
                $(Kind::$kind => Range::$kind(end(low, $number::$least)?, end(high, $number::$most)?),)*
            })
        }
    };
}

ranges! {
    Int32 i32 MIN MAX;
    Int64 i64 MIN MAX;
    Float32 f32 NEG_INFINITY INFINITY;
    Float64 f64 NEG_INFINITY INFINITY;
    Uint64 u64 MIN MAX;
}
