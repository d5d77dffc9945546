//! The footer of a fragment's metadata.

use crate::ffi::{self, Asked};
use crate::places::*;
use crate::{Description, Range, Refused, Which};
use std::fmt;

const MOST_DIMENSIONS: usize = Description::MOST_DIMENSIONS as usize;

/// An accepted footer: every number of it, its domain, and its schema name.
///
/// The lists have one entry for each field of the description. [`read_footer`] makes it.
#[derive(Clone)]
pub struct Footer<'a>(Read<'a>);

/// An accepted footer of a dense fragment: every number of it, its domain, and its schema name.
///
/// It counts no cells: [`tiles`](Self::tiles) is 0, and [`last_tile_cells`](Self::last_tile_cells) is whatever stands
/// there. [`read_dense_footer`] makes it.
#[derive(Clone)]
pub struct DenseFooter<'a>(Read<'a>);

/// What was read of a footer, be the fragment sparse or dense.
#[derive(Clone)]
struct Read<'a> {
    asked: Asked<'a>,
    answer: [u64; FOOTER_PLACES],
    domain: [Range; MOST_DIMENSIONS],
}

/// Reads and checks the footer of a metadata file of `file_size` bytes.
///
/// ```
/// use tussockbell::{read_footer, Description, Kind, Range};
///
/// let bytes = std::fs::read("../../tests/fixtures/sample/footer")?;
/// let description = Description { kinds: &[Kind::Int32], fields: 1, capacity: 32 };
/// let footer = read_footer(&description, 1166, &bytes)?;
/// assert_eq!(footer.schema_name(), b"schema");
/// assert_eq!((footer.version(), footer.tiles(), footer.total_cells()), (21, 3, 69));
/// assert_eq!(footer.domain(), [Range::Int32(0, 24)]);
/// assert_eq!(footer.file_sizes(), [1000]);
/// # Ok::<(), Box<dyn std::error::Error>>(())
/// ```
pub fn read_footer<'a>(description: &Description<'a>, file_size: u64, footer: &'a [u8]) -> Result<Footer<'a>, Refused> {
    let asked = Asked { description: *description, file_size, footer };
    Ok(Footer(Read::new(asked, ffi::footer(asked))?))
}

/// Reads and checks the footer of a dense fragment, of a metadata file of `file_size` bytes.
///
/// [`read_footer`] refuses it with [`Refused::DENSE`], and this function a sparse one. A float dimension is
/// [`Refused::GRID`], and a number of tiles other than 0 [`Refused::TILES`].
///
/// ```
/// use tussockbell::{read_dense_footer, read_footer, Description, Kind, Range, Refused};
///
/// let bytes = std::fs::read("../../tests/fixtures/dense/footer")?;
/// let description = Description { kinds: &[Kind::Int32, Kind::Int64], fields: 1, capacity: 250 };
/// let footer = read_dense_footer(&description, 1182, &bytes)?;
/// assert_eq!((footer.schema_name(), footer.dense()), (&b"schema"[..], true));
/// assert_eq!(footer.domain(), [Range::Int32(0, 99), Range::Int64(-50, 49)]);
/// assert_eq!(read_footer(&description, 1182, &bytes).unwrap_err().number, Refused::DENSE);
/// # Ok::<(), Box<dyn std::error::Error>>(())
/// ```
pub fn read_dense_footer<'a>(
    description: &Description<'a>,
    file_size: u64,
    footer: &'a [u8],
) -> Result<DenseFooter<'a>, Refused> {
    let asked = Asked { description: *description, file_size, footer };
    Ok(DenseFooter(Read::new(asked, ffi::dense_footer(asked))?))
}

impl<'a> Read<'a> {
    fn new(asked: Asked<'a>, answer: [u64; FOOTER_PLACES]) -> Result<Read<'a>, Refused> {
        Refused::check(&answer, Which::First)?;
        let mut domain = [Range::Int64(0, 0); MOST_DIMENSIONS];
        let places = answer[FOOTER_DOMAIN..].chunks(DOMAIN_PLACES);
        for ((side, kind), place) in domain.iter_mut().zip(asked.description.kinds).zip(places) {
            *side = Range::from_bits(*kind, place[DOMAIN_LOW], place[DOMAIN_HIGH]);
        }
        Ok(Read { asked, answer, domain })
    }

    fn number(&self, place: usize) -> u64 {
        self.answer[place]
    }

    fn flag(&self, place: usize) -> bool {
        self.answer[place] == 1
    }

    fn list(&self, place: usize) -> &[u64] {
        &self.answer[place..][..self.asked.description.fields as usize]
    }

    fn part(&self, name: [u64; NAME_PLACES]) -> &'a [u8] {
        &self.asked.footer[name[NAME_START] as usize..][..name[NAME_LENGTH] as usize]
    }

    fn domain(&self) -> &[Range] {
        &self.domain[..self.asked.description.kinds.len()]
    }
}

impl<'a> DenseFooter<'a> {
    /// The schema name, which is part of the footer's bytes. It may be any bytes.
    pub fn schema_name(&self) -> &'a [u8] {
        self.0.part(ffi::dense_schema_name(self.0.asked))
    }
}

impl<'a> Footer<'a> {
    pub(crate) fn asked(&self) -> &Asked<'a> {
        &self.0.asked
    }

    pub(crate) fn bytes(&self) -> &'a [u8] {
        self.0.asked.footer
    }

    pub(crate) fn capacity(&self) -> u64 {
        self.0.asked.description.capacity
    }

    /// The schema name, which is part of the footer's bytes. It may be any bytes.
    pub fn schema_name(&self) -> &'a [u8] {
        self.0.part(ffi::schema_name(self.0.asked))
    }

    /// The cells of a tile, counted from 0; 0 past the last tile.
    ///
    /// ```
    /// # use tussockbell::{read_footer, Description, Kind};
    /// # let bytes = std::fs::read("../../tests/fixtures/sample/footer")?;
    /// # let description = Description { kinds: &[Kind::Int32], fields: 1, capacity: 32 };
    /// let footer = read_footer(&description, 1166, &bytes)?;
    /// assert_eq!([0, 1, 2, 3].map(|tile| footer.cells(tile)), [32, 32, 5, 0]);
    /// # Ok::<(), Box<dyn std::error::Error>>(())
    /// ```
    pub fn cells(&self, tile: u32) -> u64 {
        ffi::cells_at(self.tiles(), self.last_tile_cells(), self.capacity(), tile.into())
    }

    /// The cells of all tiles. The library checks the footer again each time.
    pub fn total_cells(&self) -> u64 {
        ffi::total_cells(self.0.asked)
    }
}

macro_rules! named {
    ($($footer:ident)*, $names:tt) => {
        $(named!(@ $footer $names);)*
    };
    (@ $footer:ident { $($name:ident: $how:ident($place:ident) -> $type:ty, $about:literal;)* }) => {
        impl $footer<'_> {
            $(
                #[doc = $about]
                pub fn $name(&self) -> $type {
                    self.0.$how($place)
                }
            )*

            /// The cells of the last tile.
            #[deprecated(since = "1.1.0", note = "it is `last_tile_cells`, as in Python")]
            pub fn last_cells(&self) -> u64 {
                self.last_tile_cells()
            }

            /// The fragment's non-empty domain, one range for each dimension. It may serve as a window.
            pub fn domain(&self) -> &[Range] {
                self.0.domain()
            }
        }

        impl fmt::Debug for $footer<'_> {
            fn fmt(&self, f: &mut fmt::Formatter<'_>) -> fmt::Result {
                let mut shown = f.debug_struct(stringify!($footer));
                $(shown.field(stringify!($name), &self.$name());)*
                shown.field("domain", &self.domain()).finish_non_exhaustive()
            }
        }
    };
}

named! { Footer DenseFooter, {
    version: number(FOOTER_VERSION) -> u64, "The format version, 16 to 21.";
    name_size: number(FOOTER_NAME_SIZE) -> u64, "The bytes of the schema name.";
    dense: flag(FOOTER_DENSE) -> bool, "Whether the fragment is dense: it is in a [`DenseFooter`] alone.";
    null_domain: flag(FOOTER_NULL_DOMAIN) -> bool, "Whether there is no domain: false, since that is refused.";
    tiles: number(FOOTER_TILES) -> u64, "The number of tiles, 0 of a dense fragment.";
    last_tile_cells: number(FOOTER_LAST_CELLS) -> u64, "The cells of the last tile, 1 to the capacity; dense: any.";
    timestamps: flag(FOOTER_TIMESTAMPS) -> bool, "Whether the fragment includes timestamps.";
    deletes: flag(FOOTER_DELETES) -> bool, "Whether the fragment includes delete metadata.";
    rtree: number(FOOTER_RTREE) -> u64, "The offset of the R-tree in the metadata file.";
    fragment: number(FOOTER_FRAGMENT) -> u64, "The offset of the fragment's own min, max, sum and null count.";
    conditions: number(FOOTER_CONDITIONS) -> u64, "The offset of the processed conditions.";
    length: number(FOOTER_LENGTH) -> u64, "The footer's length field: 8 less than its bytes.";
    file_sizes: list(FOOTER_FILE_SIZES) -> &[u64], "The size of each field's data file.";
    file_var_sizes: list(FOOTER_FILE_VAR_SIZES) -> &[u64], "The size of each field's file of variable-sized values.";
    file_validity_sizes: list(FOOTER_FILE_VALIDITY_SIZES) -> &[u64], "The size of each field's validity file.";
    tile_offsets: list(FOOTER_TILE_OFFSETS) -> &[u64], "The offset of each field's tile offsets.";
    var_offsets: list(FOOTER_VAR_OFFSETS) -> &[u64], "The offset of each field's offsets of variable-sized values.";
    var_sizes: list(FOOTER_VAR_SIZES) -> &[u64], "The offset of each field's sizes of variable-sized values.";
    validity: list(FOOTER_VALIDITY) -> &[u64], "The offset of each field's offsets of validity values.";
    mins: list(FOOTER_MINS) -> &[u64], "The offset of each field's tile minimums.";
    maxes: list(FOOTER_MAXES) -> &[u64], "The offset of each field's tile maximums.";
    sums: list(FOOTER_SUMS) -> &[u64], "The offset of each field's tile sums.";
    null_counts: list(FOOTER_NULL_COUNTS) -> &[u64], "The offset of each field's tile null counts.";
} }
