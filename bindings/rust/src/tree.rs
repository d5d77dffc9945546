//! The R-tree: opening it, and asking which tiles a window touches.

use crate::ffi::{self, Asked};
use crate::places::{
    BOX_TEST_MEETS, BOX_TEST_READ, OPEN_FANOUT, OPEN_LEVELS, OPEN_TILES, OPEN_WHICH, QUERY_FOUND, QUERY_LOOKED,
};
use crate::ranges::Window;
use crate::refused::FOOTER_AND_TREE;
use crate::tiles::lends;
use crate::{Description, Range, Refused, Which};
use std::fmt;

/// What a query answers. A `for` loop over it goes through the tiles.
///
/// ```
/// # use tussockbell::{query, Description, Kind, Range};
/// # let tree = std::fs::read("../../tests/fixtures/sample/tree")?;
/// # let description = Description { kinds: &[Kind::Int32], fields: 1, capacity: 32 };
/// let mut out = [0; 8];
/// let hit = query(&description, 3, &tree, &[Range::from(12..=21)], &mut out)?;
/// for tile in hit {
///     assert!(tile < 3);
/// }
/// assert_eq!(hit.into_iter().collect::<Vec<u32>>(), [1, 2]);
/// # Ok::<(), Box<dyn std::error::Error>>(())
/// ```
#[derive(Clone, Copy, Debug, PartialEq, Eq)]
pub struct Hit<'b> {
    /// The tiles found, rising: the part of the lent buffer that was written. In a short buffer these are the first.
    pub tiles: &'b [u32],
    /// How many tiles were found, also where not all of them fit.
    pub found: u64,
    /// How many boxes of the tree were looked at.
    pub looked: u64,
}

lends!(Hit, tiles, u32);

/// Which tiles does a window touch, in a tree of `tiles` tiles?
///
/// The tiles go to the start of `out`, as many as fit. The rest of it stays as it was, and all of it where the query is
/// refused. The shape of the tree is checked, its boxes are not: the tiles found are exactly those whose box meets the
/// window where [`open_tree`] accepts these bytes with this description and this number of tiles.
///
/// ```
/// use tussockbell::{query, Description, Kind, Range, Refused};
///
/// let tree = std::fs::read("../../tests/fixtures/sample/tree")?;
/// let description = Description { kinds: &[Kind::Int32], fields: 1, capacity: 32 };
/// let mut out = [0; 1];
/// let answer = query(&description, 3, &tree, &[Range::Int32(12, 21)], &mut out)?;
/// assert_eq!((answer.tiles, answer.found, answer.looked), (&[1][..], 2, 6));
///
/// let refused = query(&description, 3, &tree, &[Range::Int64(12, 21)], &mut out).unwrap_err();
/// assert_eq!(refused.number, Refused::WINDOW);
/// # Ok::<(), Box<dyn std::error::Error>>(())
/// ```
pub fn query<'b>(
    description: &Description,
    tiles: u64,
    tree: &[u8],
    window: &[Range],
    out: &'b mut [u32],
) -> Result<Hit<'b>, Refused> {
    let window = Window::new(window);
    let answer = ffi::query(description, tiles, tree, window.kinds(), window.ends(), out);
    Refused::check(&answer, Which::First)?;
    let found = answer[QUERY_FOUND];
    let fits = out.len().min(found as usize);
    Ok(Hit { tiles: &out[..fits], found, looked: answer[QUERY_LOOKED] })
}

/// What a box test says.
#[derive(Clone, Copy, Debug, PartialEq, Eq)]
pub struct Tested {
    /// Whether the box meets the window in each dimension.
    pub meets: bool,
    /// How many dimensions were read for that: one more than the first that misses, from 0, or all of them.
    pub read: u64,
}

/// Does one box, in its bytes, meet a window, and how many of its dimensions are read for that?
///
/// It is the query's own test, which leaves at the first dimension that misses. A stored range with NaN is a miss. The
/// box is not checked otherwise, but for its number of bytes.
///
/// ```
/// use tussockbell::{box_test, Description, Kind, Range};
///
/// let description = Description { kinds: &[Kind::Int32, Kind::Int32], fields: 1, capacity: 32 };
/// let stored = [0, 0, 0, 0, 4, 0, 0, 0, 10, 0, 0, 0, 14, 0, 0, 0]; // 0 to 4, and 10 to 14
/// let test = |first, second| box_test(&description, &stored, &[Range::Int32(first, 9), Range::Int32(second, 19)]);
/// assert_eq!(test(4, 14).map(|t| (t.meets, t.read)), Ok((true, 2)));
/// assert_eq!(test(4, 15).map(|t| (t.meets, t.read)), Ok((false, 2)));
/// assert_eq!(test(5, 15).map(|t| (t.meets, t.read)), Ok((false, 1)));
/// ```
pub fn box_test(description: &Description, stored: &[u8], window: &[Range]) -> Result<Tested, Refused> {
    let window = Window::new(window);
    let answer = ffi::box_test(description, stored, window.kinds(), window.ends());
    Refused::check(&answer, Which::First)?;
    Ok(Tested { meets: answer[BOX_TEST_MEETS] == 1, read: answer[BOX_TEST_READ] })
}

/// An accepted tree, which can be asked many times.
///
/// A query of it finds exactly the tiles whose box meets the window, edges included. [`open_tree`] makes it.
///
/// ```
/// # use tussockbell::{open_tree, Description, Kind, Range};
/// # let footer = std::fs::read("../../tests/fixtures/sample/footer")?;
/// # let bytes = std::fs::read("../../tests/fixtures/sample/tree")?;
/// # let description = Description { kinds: &[Kind::Int32], fields: 1, capacity: 32 };
/// let tree = open_tree(&description, 1166, &footer, &bytes)?;
/// let mut out = [0; 8];
/// for (low, high, tiles) in [(12, 21, &[1, 2][..]), (14, 14, &[1]), (15, 19, &[])] {
///     let window = [Range::Int32(low, high)];
///     assert_eq!(tree.query(&window, &mut out)?.tiles, tiles);
///     assert_eq!(tree.tiles_in(&window)?, tiles);
/// }
/// # Ok::<(), Box<dyn std::error::Error>>(())
/// ```
#[derive(Clone, Copy)]
pub struct Tree<'a> {
    description: Description<'a>,
    bytes: &'a [u8],
    tiles: u64,
    fanout: u64,
    levels: u64,
}

/// Opens a footer, of a metadata file of `file_size` bytes, and a tree together, and checks every box.
///
/// A refusal says whether its place counts in the footer ([`Which::First`]) or in the tree ([`Which::Second`]), and so
/// does its text.
///
/// ```
/// use tussockbell::{open_tree, Description, Kind};
///
/// let footer = std::fs::read("../../tests/fixtures/sample/footer")?;
/// let mut bytes = std::fs::read("../../tests/fixtures/sample/tree")?;
/// let description = Description { kinds: &[Kind::Int32], fields: 1, capacity: 32 };
/// let tree = open_tree(&description, 1166, &footer, &bytes)?;
/// assert_eq!((tree.tiles(), tree.fanout(), tree.levels()), (3, 2, 3));
///
/// bytes[76] = 25; // the last tile's maximum
/// let refused = open_tree(&description, 1166, &footer, &bytes).unwrap_err();
/// assert_eq!(refused.to_string(), "refused 15 at 72 of the tree: a box not inside its parent");
/// # Ok::<(), Box<dyn std::error::Error>>(())
/// ```
pub fn open_tree<'a>(
    description: &Description<'a>,
    file_size: u64,
    footer: &[u8],
    tree: &'a [u8],
) -> Result<Tree<'a>, Refused> {
    let answer = ffi::open(Asked { description: *description, file_size, footer }, tree);
    Refused::check_two(&answer, OPEN_WHICH, FOOTER_AND_TREE)?;
    let (tiles, fanout, levels) = (answer[OPEN_TILES], answer[OPEN_FANOUT], answer[OPEN_LEVELS]);
    Ok(Tree { description: *description, bytes: tree, tiles, fanout, levels })
}

impl Tree<'_> {
    pub(crate) fn description(&self) -> &Description<'_> {
        &self.description
    }

    pub(crate) fn bytes(&self) -> &[u8] {
        self.bytes
    }

    /// The number of tiles.
    pub fn tiles(&self) -> u64 {
        self.tiles
    }

    /// The most children that a box has.
    pub fn fanout(&self) -> u64 {
        self.fanout
    }

    /// The number of levels, root and tiles included.
    pub fn levels(&self) -> u64 {
        self.levels
    }

    /// Which tiles does a window touch? As [`query`], on this tree.
    ///
    /// A window that does not fit the description is refused, and `out` stays as it was.
    pub fn query<'b>(&self, window: &[Range], out: &'b mut [u32]) -> Result<Hit<'b>, Refused> {
        query(&self.description, self.tiles, self.bytes, window, out)
    }

    /// All tiles that a window touches, rising, in a vector of their own.
    pub fn tiles_in(&self, window: &[Range]) -> Result<Vec<u32>, Refused> {
        let mut tiles = vec![0; self.tiles as usize];
        let found = self.query(window, &mut tiles)?.tiles.len();
        tiles.truncate(found);
        tiles.shrink_to_fit();
        Ok(tiles)
    }
}

impl fmt::Debug for Tree<'_> {
    fn fmt(&self, f: &mut fmt::Formatter<'_>) -> fmt::Result {
        let mut shown = f.debug_struct("Tree");
        shown.field("tiles", &self.tiles).field("fanout", &self.fanout).field("levels", &self.levels);
        shown.finish_non_exhaustive()
    }
}
