//! Refusals.

use crate::places::{NUMBER, PLACE};
use std::fmt;
use std::hash::{Hash, Hasher};

/// Which of two byte strings that are lent together a refusal's place counts in.
///
/// It also has what that one is called, which [`Refused::of`] tells. Two are equal if both are the first, or both the
/// second, whatever they are called.
#[derive(Clone, Copy)]
pub struct Which {
    second: bool,
    of: Option<&'static str>,
}

#[allow(non_upper_case_globals)] // called as the variants that they were
impl Which {
    /// The first or only one, and where the refusal is about the bytes of neither.
    pub const First: Which = Which { second: false, of: None };
    /// The second one: what [`open_tree`](crate::open_tree), [`convert_tree`](crate::convert_tree),
    /// [`tile_ranges`](crate::tile_ranges) and [`null_counts`](crate::null_counts) take last.
    pub const Second: Which = Which { second: true, of: None };
}

impl PartialEq for Which {
    fn eq(&self, other: &Which) -> bool {
        self.second == other.second
    }
}

impl Eq for Which {}

impl Hash for Which {
    fn hash<H: Hasher>(&self, state: &mut H) {
        self.second.hash(state);
    }
}

impl fmt::Debug for Which {
    fn fmt(&self, f: &mut fmt::Formatter<'_>) -> fmt::Result {
        f.write_str(if self.second { "Second" } else { "First" })
    }
}

/// What a footer and a tree that are lent together are called.
pub(crate) const FOOTER_AND_TREE: [&str; 2] = ["the footer", "the tree"];

/// Why the library does not answer: a number that says what is wrong, and the place of it in the lent bytes.
///
/// ```
/// use tussockbell::{tile_sizes, Refused, Which};
///
/// let refused = tile_sizes(3, &[0; 7]).unwrap_err();
/// assert_eq!(refused, Refused { number: Refused::BYTES, place: 7, which: Which::First });
/// assert_eq!(refused.to_string(), "refused 2 at 7: byte count or length field wrong");
/// ```
#[derive(Clone, Copy, Debug, PartialEq, Eq, Hash)]
pub struct Refused {
    /// The refusal's number; the constants have them by name.
    pub number: u64,
    /// The position of the field's first byte in the lent bytes. Where a byte count or the length field is wrong it is
    /// the number of lent bytes, in a window or of a retired kind the dimension counted from 0, in a listing the line
    /// counted from 0, and where no bytes are to blame 0.
    pub place: u64,
    /// Which of two byte strings the place counts in.
    pub which: Which,
}

macro_rules! refusals {
    ($($number:literal $name:ident $text:literal;)*) => {
        impl Refused {
            $(
                #[doc = concat!("Number ", $number, ": ", $text, ".")]
                pub const $name: u64 = $number;
            )*

            /// What the number means, in the words of the C header.
            pub fn text(&self) -> &'static str {
                match self.number {
                    0 => "not refused",
                    $($number => $text,)*
                    _ => "no refusal number",
                }
            }
        }
    };
}

refusals! {
    1 DESCRIPTION "description outside the limits";
    2 BYTES "byte count or length field wrong";
    3 VERSION "version outside the limits";
    4 NAME_SIZE "name size outside the limits";
    5 FLAG "a flag byte is neither 0 nor 1";
    6 DENSE "the dense flag is not this entry's";
    7 NULL_DOMAIN "null-domain flag is 1";
    8 NOT_A_NUMBER "a range end is NaN";
    9 REVERSED "minimum above maximum";
    10 TILES "tile number outside the limits";
    11 LAST_CELLS "last tile's cells not 1 to the capacity";
    12 OFFSET "an offset not below the footer's place in the file";
    13 FANOUT "fanout outside the limits";
    14 LEVELS "level number or a level's box count wrong";
    15 OUTSIDE_PARENT "a box not inside its parent";
    16 OUTSIDE_DOMAIN "the first box not inside the domain";
    17 COUNT "a list's count is not the number of tiles";
    18 TILE_OFFSETS "tile offsets break their rule";
    19 WINDOW "the window's dimension number or a kind differs";
    20 SUM "tile sizes add up past 2^64 - 1";
    21 WORK "the work buffer is too short";
    22 RUNS "the answer run is not as long as the query run";
    23 INFINITE "a stored range end is infinite";
    24 BAD_LINE "a bad line of a listing";
    25 REPEATED "a record repeated whole";
    26 ROOM "the output buffer is too short";
    27 NULL_COUNT "a null count above its tile's cells";
    28 RETIRED "a dimension of kind float32, which is retired";
    29 GRID "a float kind, an extent of 0, or a domain that does not split into whole tiles";
}

impl Refused {
    /// What a description outside the limits gets.
    pub(crate) const NO_DESCRIPTION: Refused = Refused { number: Refused::DESCRIPTION, place: 0, which: Which::First };

    /// The refusal that an answer starts with, if it is one.
    pub(crate) fn check(answer: &[u64], which: Which) -> Result<(), Refused> {
        match answer[NUMBER] {
            0 => Ok(()),
            number => Err(Refused { number, place: answer[PLACE], which }),
        }
    }

    /// The same where two byte strings were lent that are called so: which of them it is stands at a place of the answer.
    pub(crate) fn check_two(answer: &[u64], which: usize, called: [&'static str; 2]) -> Result<(), Refused> {
        let second = answer[which] != 0;
        let neither = match answer[NUMBER] {
            Refused::DESCRIPTION | Refused::RETIRED | Refused::WORK | Refused::ROOM => true,
            // a number of tiles that the caller gave: the footer's stands further on
            Refused::TILES => answer[PLACE] == 0,
            _ => false,
        };
        Refused::check(answer, Which { second, of: (!neither).then_some(called[usize::from(second)]) })
    }

    /// What the bytes are called that the place counts in, as "the tree", where two byte strings were lent and the
    /// refusal is about one of them.
    ///
    /// ```
    /// use tussockbell::{tile_ranges, Kind, Which};
    ///
    /// let body = |value: i32| [&1u64.to_le_bytes()[..], &value.to_le_bytes(), &[0; 8]].concat();
    /// let refused = tile_ranges(Kind::Int32, 1, &body(5), &body(4)).unwrap_err();
    /// assert_eq!((refused.which, refused.of()), (Which::Second, Some("the maxes")));
    /// ```
    pub fn of(&self) -> Option<&'static str> {
        self.which.of
    }
}

impl fmt::Display for Refused {
    fn fmt(&self, f: &mut fmt::Formatter<'_>) -> fmt::Result {
        write!(f, "refused {} at {}", self.number, self.place)?;
        if let Some(of) = self.of().or(self.which.second.then_some("the second byte string")) {
            write!(f, " of {of}")?;
        }
        write!(f, ": {}", self.text())
    }
}

impl std::error::Error for Refused {}
