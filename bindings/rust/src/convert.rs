//! Footers and trees from before float32 was retired, with float64 in its place; and the descriptions and windows that
//! go with them.

use crate::ffi::{self, Asked};
use crate::places::{CONVERT_LENGTH, CONVERT_PLACES, CONVERT_WHICH};
use crate::refused::FOOTER_AND_TREE;
use crate::{Description, Kind, Range, Refused, Which};

/// The length that an answer on a footer and a tree tells.
fn length(answer: [u64; CONVERT_PLACES]) -> Result<u64, Refused> {
    Refused::check_two(&answer, CONVERT_WHICH, FOOTER_AND_TREE)?;
    Ok(answer[CONVERT_LENGTH])
}

/// How many bytes [`convert_tree`] writes: the room that it asks for. It is refused as that is, but for its room.
pub fn converted_length(description: &Description, file_size: u64, footer: &[u8], tree: &[u8]) -> Result<u64, Refused> {
    length(ffi::convert_length(Asked { description: *description, file_size, footer }, tree))
}

/// Writes an old tree with its float32 ranges as float64 to the start of `out`, and returns that part of it.
///
/// Description, footer and tree are the old ones, and are accepted and refused as [`open_tree`](crate::open_tree) did
/// when float32 was a kind like the others. What is written is the same tree: fanout, levels and counts, each box side
/// by side, other kinds byte by byte; without a float32 dimension it is a copy. The rest of `out` stays as it was, and
/// all of it where the call is refused; [`Refused::ROOM`] says that all else is well and `out` is too short.
///
/// [`Description::widened`] goes with it, and the footer that [`convert_footer`] writes. A query that was not refused
/// finds the same tiles and looks at as many boxes once each side of its window is [`widened`](Range::widened).
///
/// ```
/// use tussockbell::{convert_footer, convert_tree, converted_length, open_tree, Description, Kind, Range, Refused};
///
/// let read = |name: &str| std::fs::read(format!("../../tests/fixtures/float32/old/{name}")).unwrap();
/// let [footer, tree] = ["footer", "tree"].map(read);
/// let old = Description { kinds: &[Kind::Float32], fields: 1, capacity: 100 };
/// assert_eq!(open_tree(&old, 1169, &footer, &tree).unwrap_err().number, Refused::RETIRED);
///
/// let mut out = vec![0; converted_length(&old, 1169, &footer, &tree)? as usize];
/// let new_tree = convert_tree(&old, 1169, &footer, &tree, &mut out)?;
/// let mut room = vec![0; footer.len() + 8];
/// let new = convert_footer(&old, 1169, &footer, &mut room)?;
/// let mut kinds = vec![];
/// let opened = open_tree(&old.widened(&mut kinds), new.file_size.unwrap(), new.footer, new_tree)?;
/// assert_eq!(opened.tiles_in(&[Range::Float32(-0.625, 24.375).widened()])?, [4, 5, 6]);
/// # Ok::<(), Refused>(())
/// ```
#[doc(alias = "convert_tree_into")]
pub fn convert_tree<'b>(
    description: &Description,
    file_size: u64,
    footer: &[u8],
    tree: &[u8],
    out: &'b mut [u8],
) -> Result<&'b [u8], Refused> {
    let written = length(ffi::convert(Asked { description: *description, file_size, footer }, tree, out))?;
    Ok(&out[..written as usize])
}

/// What [`convert_footer`] answers.
#[derive(Clone, Copy, Debug, PartialEq, Eq)]
pub struct ConvertedFooter<'b> {
    /// The new footer: the part of the lent buffer that was written.
    pub footer: &'b [u8],
    /// The size of a metadata file with which it is accepted, as many bytes larger as the footer is longer; none where
    /// that is past 2^64 - 1.
    pub file_size: Option<u64>,
}

/// Writes an old footer with the float32 ranges of its domain as float64, and with the new length in its length field,
/// to the start of `out`; every other byte stays.
///
/// It is refused as [`read_footer`](crate::read_footer) did when float32 was a kind like the others, and then with
/// [`Refused::ROOM`] where `out` is too short: what is written has 8 bytes more for each float32 dimension. The rest of
/// `out` stays as it was, and all of it where the call is refused. [`convert_tree`] has an example.
pub fn convert_footer<'b>(
    description: &Description,
    file_size: u64,
    footer: &[u8],
    out: &'b mut [u8],
) -> Result<ConvertedFooter<'b>, Refused> {
    let answer = ffi::convert_footer(Asked { description: *description, file_size, footer }, out);
    Refused::check(&answer, Which::First)?;
    let written = answer[CONVERT_LENGTH];
    let file_size = file_size.checked_add(written - footer.len() as u64);
    Ok(ConvertedFooter { footer: &out[..written as usize], file_size })
}

impl Kind {
    /// Float64 for float32, and else the kind itself.
    pub const fn widened(self) -> Kind {
        match self {
            Kind::Float32 => Kind::Float64,
            other => other,
        }
    }
}

impl Description<'_> {
    /// The description of what [`convert_tree`] and [`convert_footer`] write; its kinds go to the vector that is lent.
    pub fn widened<'k>(&self, kinds: &'k mut Vec<Kind>) -> Description<'k> {
        kinds.clear();
        kinds.extend(self.kinds.iter().map(|kind| kind.widened()));
        Description { kinds, fields: self.fields, capacity: self.capacity }
    }
}

impl Range {
    /// The side that asks of a converted tree what this one asked of the old one: a float32 range as float64, and else
    /// the range itself.
    ///
    /// An end that was rounded to `f32` is widened after that, never before: 0.1 as `f32` is above 0.1, so that a window
    /// up to it touches boxes that one up to the `f64` 0.1 misses.
    pub fn widened(self) -> Range {
        match self {
            Range::Float32(low, high) => Range::Float64(low.into(), high.into()),
            other => other,
        }
    }
}
