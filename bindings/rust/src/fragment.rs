//! A fragment: its footer, its tree and the offsets of its fields, checked once and then asked together.

use crate::plan::work_bytes;
use crate::{open_tree, read_footer, tile_offsets, var_tile_offsets};
use crate::{Description, Extent, Footer, Hit, Offsets, Range, Refused, Tree};
use std::fmt;

/// A file of a field, which is counted from 0 as in the footer's lists.
#[derive(Clone, Copy, Debug, PartialEq, Eq, Hash)]
pub enum Field {
    /// The data file: the values of a fixed field, or the starts of a var field's.
    Data(usize),
    /// The file of var data.
    Var(usize),
    /// The file that says which cells have a value.
    Validity(usize),
}

/// Why a fragment is not opened, or has no plan.
#[derive(Clone, Copy, Debug, PartialEq, Eq)]
pub enum FragmentError {
    /// The library refuses a part of it, or a window.
    Refused(Refused),
    /// The footer has no such field, or its offsets were not lent.
    NoField(Field),
    /// So many of the tiles that were found have no offsets.
    Outside(u64),
}

impl From<Refused> for FragmentError {
    fn from(refused: Refused) -> FragmentError {
        FragmentError::Refused(refused)
    }
}

impl fmt::Display for FragmentError {
    fn fmt(&self, f: &mut fmt::Formatter<'_>) -> fmt::Result {
        match self {
            FragmentError::Refused(refused) => refused.fmt(f),
            FragmentError::NoField(field) => write!(f, "no offsets of the field {field:?}"),
            FragmentError::Outside(number) => write!(f, "{number} of the tiles that were found have no offsets"),
        }
    }
}

impl std::error::Error for FragmentError {}

/// What is read of a field's file for all tiles that some windows touch. [`Fragment::plan`] makes it; a `for` loop over
/// it goes through the ranges.
#[derive(Clone, Debug, PartialEq, Eq)]
pub struct FieldPlan {
    /// Where the bytes are, rising.
    pub ranges: Vec<Extent>,
    /// How many different tiles were found.
    pub tiles: u64,
    /// How many bytes all ranges have.
    pub bytes: u64,
}

impl IntoIterator for FieldPlan {
    type Item = Extent;
    type IntoIter = std::vec::IntoIter<Extent>;

    fn into_iter(self) -> Self::IntoIter {
        self.ranges.into_iter()
    }
}

impl<'p> IntoIterator for &'p FieldPlan {
    type Item = Extent;
    type IntoIter = std::iter::Copied<std::slice::Iter<'p, Extent>>;

    fn into_iter(self) -> Self::IntoIter {
        self.ranges.iter().copied()
    }
}

/// A fragment's footer, tree and offsets, each checked once.
///
/// It borrows their bytes, from wherever they were read or mapped, and may be asked from several threads. Two are equal
/// if all that was lent is.
///
/// ```
/// use tussockbell::{Description, Extent, Field, Fragment, Kind, Range};
///
/// # let [footer, tree] = ["footer", "tree"].map(|name| std::fs::read(format!("../../tests/fixtures/sample/{name}")).unwrap());
/// let offsets = [3u64, 0, 100, 250].map(u64::to_le_bytes).concat();
/// let description = Description { kinds: &[Kind::Int32], fields: 1, capacity: 32 };
/// let fragment = Fragment::open(&description, 1166, &footer, &tree, &[(Field::Data(0), &offsets)])?;
/// assert_eq!(fragment.footer().file_sizes(), [1000]);
///
/// let plan = fragment.plan(&[&[Range::Int32(12, 14)], &[Range::Int32(20, 21)]], Field::Data(0), 0)?;
/// assert_eq!(plan.ranges, [Extent { offset: 100, length: 900 }]);
/// assert_eq!((plan.tiles, plan.bytes), (2, 900));
/// # Ok::<(), tussockbell::FragmentError>(())
/// ```
#[derive(Clone)]
pub struct Fragment<'a> {
    footer: Footer<'a>,
    tree: Tree<'a>,
    offsets: Vec<(Field, Offsets<'a>)>,
}

/// The room that a batch is first asked with. One that finds more tiles is asked once more, with room for all of them.
const FIRST_ROOM: usize = 4096;

impl<'a> Fragment<'a> {
    /// Opens and checks a footer, of a metadata file of `file_size` bytes, a tree, and the offsets of as many fields as
    /// are to be read. How many bytes a field's file has, the footer says.
    pub fn open(
        description: &Description<'a>,
        file_size: u64,
        footer: &'a [u8],
        tree: &'a [u8],
        offsets: &[(Field, &'a [u8])],
    ) -> Result<Fragment<'a>, FragmentError> {
        let footer = read_footer(description, file_size, footer)?;
        let tree = open_tree(description, file_size, footer.bytes(), tree)?;
        let checked = |(field, list): &(Field, &'a [u8])| {
            let (sizes, at, check): (_, _, fn(u64, u64, &'a [u8]) -> _) = match *field {
                Field::Data(at) => (footer.file_sizes(), at, tile_offsets),
                Field::Var(at) => (footer.file_var_sizes(), at, var_tile_offsets),
                Field::Validity(at) => (footer.file_validity_sizes(), at, tile_offsets),
            };
            let size = *sizes.get(at).ok_or(FragmentError::NoField(*field))?;
            Ok((*field, check(footer.tiles(), size, list)?))
        };
        let offsets = offsets.iter().map(checked).collect::<Result<_, FragmentError>>()?;
        Ok(Fragment { footer, tree, offsets })
    }

    /// The footer.
    pub fn footer(&self) -> &Footer<'a> {
        &self.footer
    }

    /// The opened tree.
    pub fn tree(&self) -> &Tree<'a> {
        &self.tree
    }

    /// The checked offsets of a field's file, if they were lent.
    pub fn offsets(&self, field: Field) -> Option<&Offsets<'a>> {
        self.offsets.iter().find(|(lent, _)| *lent == field).map(|(_, offsets)| offsets)
    }

    /// Which tiles does a window touch? As [`Tree::query`].
    pub fn query<'b>(&self, window: &[Range], out: &'b mut [u32]) -> Result<Hit<'b>, Refused> {
        self.tree.query(window, out)
    }

    /// Which tiles does each window touch? As [`Tree::query_batch`].
    pub fn query_batch<'b>(&self, windows: &[&[Range]], out: &'b mut [u32]) -> Vec<Result<Hit<'b>, Refused>> {
        self.tree.query_batch(windows, out)
    }

    /// Which bytes of a field's file are read for all tiles that the windows touch?
    ///
    /// The first window that is refused refuses all of it, and a tile that the offsets have not is an error, so that a
    /// plan has the bytes of every tile that was found.
    pub fn plan(&self, windows: &[&[Range]], field: Field, gap: u64) -> Result<FieldPlan, FragmentError> {
        let offsets = self.offsets(field).ok_or(FragmentError::NoField(field))?;
        let run = self.found(windows)?;
        let mut work = vec![0; work_bytes(self.footer.tiles()) as usize];
        let mut ranges = vec![Extent::default(); run.len().min(offsets.len())];
        let plan = offsets.plan(&run, gap, &mut work, &mut ranges)?;
        let (found, tiles, bytes, outside) = (plan.ranges.len(), plan.tiles, plan.bytes, plan.outside);
        if outside > 0 {
            return Err(FragmentError::Outside(outside));
        }
        ranges.truncate(found);
        Ok(FieldPlan { ranges, tiles, bytes })
    }

    /// The tiles of all windows, one after the other.
    fn found(&self, windows: &[&[Range]]) -> Result<Vec<u32>, Refused> {
        let mut out = vec![0; FIRST_ROOM];
        loop {
            let answers = self.tree.query_batch(windows, &mut out).into_iter();
            let found = answers.map(|answer| answer.map(|answer| answer.found)).sum::<Result<u64, _>>()? as usize;
            if found <= out.len() {
                out.truncate(found);
                return Ok(out);
            }
            out = vec![0; found];
        }
    }
}

impl PartialEq for Fragment<'_> {
    fn eq(&self, other: &Self) -> bool {
        let same =
            |(field, own): &(Field, Offsets)| other.offsets(*field).is_some_and(|theirs| own.lent() == theirs.lent());
        self.footer.asked() == other.footer.asked()
            && self.tree.bytes() == other.tree.bytes()
            && self.offsets.len() == other.offsets.len()
            && self.offsets.iter().all(same)
    }
}

impl Eq for Fragment<'_> {}

impl fmt::Debug for Fragment<'_> {
    fn fmt(&self, f: &mut fmt::Formatter<'_>) -> fmt::Result {
        let fields: Vec<Field> = self.offsets.iter().map(|(field, _)| *field).collect();
        let mut shown = f.debug_struct("Fragment");
        shown.field("tiles", &self.footer.tiles()).field("offsets", &fields).finish_non_exhaustive()
    }
}
