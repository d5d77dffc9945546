//! Which data tiles of a TileDB fragment does a window touch?
//!
//! Tussockbell reads the fragment's metadata and answers. The library under this crate is proved to do what its
//! contracts say, for every input; this crate lends it slices and gives its answers names and types. It copies none of
//! the bytes, and only [`Tree::tiles_in`], [`DenseGrid::tiles_in`], [`query_batch`], over ranges, [`Fragment`],
//! [`log_line`] and [`Description::window`] allocate.
//!
//! - [`read_footer`] reads the footer of `__fragment_metadata.tdb`: every number of it.
//! - [`open_tree`] opens a footer and an R-tree together and checks every box; the [`Tree`] answers windows.
//! - [`TreeParts`] checks a tree that arrives in blocks.
//! - [`query`] answers a window over a tree's plain bytes, [`query_batch`] all windows of a batch in one call.
//! - [`box_test`] tests one box against a window, and tells how many dimensions it read.
//! - [`tile_offsets`], [`var_tile_offsets`] and [`tile_sizes`] read a field's lists.
//! - [`tile_values`], [`tile_ranges`], [`tile_sums`] and [`null_counts`] read what is known of a field in each tile;
//!   [`var_tile_values`] and [`var_tile_ranges`] are for var fields.
//! - [`write_tree`] writes an R-tree from its leaf boxes, and [`tree_length`] tells how many bytes it has.
//! - [`convert_tree`] and [`convert_footer`] write the tree and the footer of a fragment from before float32 was retired
//!   with float64 in its place; [`converted_length`] tells the room for the tree.
//! - [`committed`] tells which folders of a listing are committed.
//! - [`report`] writes the report of four files as text.
//! - [`replay`] asks the queries of a log again, and writes which answers are the logged ones; [`log_line`] makes a
//!   line of it.
//! - [`DenseGrid`] answers windows over the tiles of a dense array, and [`read_dense_footer`] reads a dense footer.
//! - [`read_plan`] and [`var_read_plan`] tell which bytes of a data file are read for a run of tiles; a [`Fragment`]
//!   has footer, tree and offsets together, and plans for windows.
//!
//! Every function takes any input. Bad input is [`Refused`], with a number and a place, and a result buffer then holds
//! what it held before. Trees and lists are the bodies of their generic tiles, already unfiltered.
//!
//! ```
//! use tussockbell::{query, Description, Kind, Range};
//!
//! // Three tiles with the ranges 0 to 4, 10 to 14 and 20 to 24 of one int32 dimension.
//! let tree = [
//!     2, 0, 0, 0, 3, 0, 0, 0,
//!     1, 0, 0, 0, 0, 0, 0, 0, 0, 0, 0, 0, 24, 0, 0, 0,
//!     2, 0, 0, 0, 0, 0, 0, 0, 0, 0, 0, 0, 14, 0, 0, 0, 20, 0, 0, 0, 24, 0, 0, 0,
//!     3, 0, 0, 0, 0, 0, 0, 0, 0, 0, 0, 0, 4, 0, 0, 0, 10, 0, 0, 0, 14, 0, 0, 0, 20, 0, 0, 0, 24, 0, 0, 0,
//! ];
//! let description = Description { kinds: &[Kind::Int32], fields: 1, capacity: 32 };
//! let mut out = [0; 8];
//! let answer = query(&description, 3, &tree, &[Range::Int32(12, 21)], &mut out)?;
//! assert_eq!(answer.tiles, [1, 2]);
//! assert_eq!(answer.looked, 6);
//! # Ok::<(), tussockbell::Refused>(())
//! ```
//!
//! Names are those of the Python package. What takes a buffer there, as `write_tree_into`, has no second form here:
//! every function of this crate takes one. A window is a slice of [`Range`]; [`Description::window`] reads one from a
//! text.
//!
//! The crate links `libtussockbell.a`, which `make lib` puts into the checkout's `build/`. The environment variable
//! `TUSSOCKBELL_LIB_DIR` names another folder. `cargo doc` and `cargo check` do without it.

#![deny(missing_docs)]
#![deny(unsafe_code)]
#![deny(unsafe_op_in_unsafe_fn)]

mod batch;
mod committed;
mod convert;
mod dense;
#[allow(unsafe_code)]
mod ffi;
mod footer;
mod fragment;
mod lists;
mod parts;
mod places;
mod plan;
mod ranges;
mod refused;
mod replay;
mod texts;
mod tiles;
mod tree;
mod values;
mod write;

pub use batch::{query_batch, query_batch_bytes, Record};
pub use committed::{committed, Committed};
pub use convert::{convert_footer, convert_tree, converted_length, ConvertedFooter};
pub use dense::{DenseGrid, DenseHit, Order};
pub use footer::{read_dense_footer, read_footer, DenseFooter, Footer};
pub use fragment::{Field, FieldPlan, Fragment, FragmentError};
pub use lists::{tile_offsets, tile_sizes, var_tile_offsets, Extent, Offsets};
pub use parts::{Opened, TreeParts};
pub use plan::{read_plan, var_read_plan, work_bytes, Plan};
pub use ranges::{Description, Kind, Range};
pub use refused::{Refused, Which};
pub use replay::{log_line, replay, REPLAY_LINE};
pub use texts::WindowError;
pub use tiles::TileIter;
pub use tree::{box_test, open_tree, query, Hit, Tested, Tree};
pub use values::{null_counts, tile_ranges, tile_sums, tile_values, var_tile_ranges, var_tile_values};
pub use values::{NullCounts, TileRanges, TileSums, TileValues, Value, VarValues};
pub use write::{tree_length, write_tree};

/// The name of [`Hit`] in version 1.0.
#[deprecated(since = "1.1.0", note = "it is `Hit`, as in Python")]
pub type Answer<'b> = Hit<'b>;

/// The name of [`DenseHit`] in version 1.0.
#[deprecated(since = "1.1.0", note = "it is `DenseHit`, as in Python")]
pub type DenseAnswer<'b> = DenseHit<'b>;

/// The name of [`Offsets`] in version 1.0.
#[deprecated(since = "1.1.0", note = "it is `Offsets`, as in Python")]
pub type TileOffsets<'a> = Offsets<'a>;

/// The version of this crate, which is that of the library and its header.
pub const VERSION: &str = env!("CARGO_PKG_VERSION");

/// The version of the library that is linked, as one number: 1,000,000 times its first part, 1,000 times its second, and
/// its third. It is another than [`VERSION`] only where `TUSSOCKBELL_LIB_DIR` named another library.
///
/// ```
/// let parts = tussockbell::VERSION.split('.').map(|part| part.parse::<u64>().unwrap());
/// assert_eq!(tussockbell::version(), parts.fold(0, |number, part| 1000 * number + part));
/// ```
pub fn version() -> u64 {
    ffi::version()
}

/// No text of [`report`] is longer.
pub const REPORT_MOST: usize = 688_212;

/// The report of the contents of four files: description, footer, tree and offsets.
///
/// Returns the length of its text, which is at most [`REPORT_MOST`], and writes the text, which is ASCII, at the start
/// of `out` if all of it fits; otherwise `out` stays as it was.
///
/// ```
/// use tussockbell::report;
///
/// let files = ["description", "footer", "tree", "offsets"];
/// let [description, footer, tree, offsets] =
///     files.map(|name| std::fs::read(format!("../../tests/fixtures/sample/{name}")).unwrap());
/// let mut out = [0; 100];
/// let length = report(&description, &footer, &tree, &offsets, &mut out);
/// assert_eq!(&out[..length], b"tiles\t3\tfound\t2\tlooked\t6\n1\t100\t150\t32\n2\t250\t50\t5\n");
/// ```
pub fn report(description: &[u8], footer: &[u8], tree: &[u8], offsets: &[u8], out: &mut [u8]) -> usize {
    ffi::report(description, footer, tree, offsets, out)
}
