//! Dense arrays: which tiles of a grid a window touches.

use crate::ffi::{self, Grid};
use crate::places::DENSE_FOUND;
use crate::ranges::Window;
use crate::tiles::lends;
use crate::{Description, Range, Refused, Which};
use std::fmt;
use std::str::FromStr;

/// The order in which the tiles of a grid are numbered, by TileDB's own Layout number.
///
/// ```
/// use tussockbell::{Order, Refused};
///
/// assert_eq!("column-major".parse(), Ok(Order::ColumnMajor));
/// assert_eq!(Order::default().to_string(), "row-major");
/// assert_eq!("diagonal".parse::<Order>().unwrap_err().number, Refused::DESCRIPTION);
/// ```
#[derive(Clone, Copy, Debug, Default, PartialEq, Eq, Hash)]
#[repr(u8)]
pub enum Order {
    /// The last dimension is the fastest.
    #[default]
    RowMajor = 0,
    /// The first dimension is the fastest.
    ColumnMajor = 1,
}

impl Order {
    const ALL: [Order; 2] = [Order::RowMajor, Order::ColumnMajor];

    /// The word for it, which Python and the command line take too.
    pub const fn name(self) -> &'static str {
        match self {
            Order::RowMajor => "row-major",
            Order::ColumnMajor => "column-major",
        }
    }
}

impl fmt::Display for Order {
    fn fmt(&self, f: &mut fmt::Formatter<'_>) -> fmt::Result {
        f.pad(self.name())
    }
}

/// The order of a word. Any other text is refused as a grid with it would be.
impl FromStr for Order {
    type Err = Refused;

    fn from_str(text: &str) -> Result<Order, Refused> {
        Order::ALL.into_iter().find(|order| order.name() == text).ok_or(Refused::NO_DESCRIPTION)
    }
}

/// The order of a Layout number. Any other number is refused as a grid with it would be.
impl TryFrom<u8> for Order {
    type Error = Refused;

    fn try_from(number: u8) -> Result<Order, Refused> {
        Order::ALL.into_iter().find(|order| *order as u8 == number).ok_or(Refused::NO_DESCRIPTION)
    }
}

/// What a window finds in a grid. A `for` loop over it goes through the tiles.
#[derive(Clone, Copy, Debug, PartialEq, Eq)]
pub struct DenseHit<'b> {
    /// The tiles found, rising: the part of the lent buffer that was written. In a short buffer these are the first.
    pub tiles: &'b [u32],
    /// How many tiles were found, also where not all of them fit.
    pub found: u64,
}

lends!(DenseHit, tiles, u32);

/// The tiles of a dense array, which has no tree: a grid over its domain, checked.
///
/// The first tile begins at the domain's minimum, and has as many cells along each dimension as its extent says.
///
/// ```
/// use tussockbell::{DenseGrid, Description, Kind, Order, Range};
///
/// let description = Description { kinds: &[Kind::Int32, Kind::Int64], fields: 1, capacity: 250 };
/// let domain = [Range::Int32(0, 99), Range::Int64(-50, 49)];
/// let grid = DenseGrid::new(&description, &domain, &[10, 25], Order::RowMajor)?;
/// assert_eq!(grid.tiles(), 40);
///
/// let window = [Range::Int32(5, 14), Range::Int64(-20, 0)];
/// let mut out = [0; 3];
/// let answer = grid.query(&window, &mut out)?;
/// assert_eq!((answer.tiles, answer.found), (&[1, 2, 5][..], 4));
/// assert_eq!(grid.tiles_in(&window)?, [1, 2, 5, 6]);
///
/// let refused = DenseGrid::new(&description, &domain, &[10, 30], Order::RowMajor).unwrap_err();
/// assert_eq!((refused.number, refused.place), (tussockbell::Refused::GRID, 1));
/// # Ok::<(), tussockbell::Refused>(())
/// ```
#[derive(Clone, Copy)]
pub struct DenseGrid<'a> {
    description: Description<'a>,
    domain: Window,
    extents: &'a [u64],
    order: Order,
    tiles: u64,
}

impl<'a> DenseGrid<'a> {
    /// Checks a grid: the description; the domain, as a window is checked; [`Refused::GRID`] at the first dimension
    /// that is of a float kind, has an extent of 0 or none, or does not split into whole tiles; and [`Refused::TILES`]
    /// for more than [`Description::MOST_TILES`] tiles. Extents past the dimensions are ignored.
    pub fn new(
        description: &Description<'a>,
        domain: &[Range],
        extents: &'a [u64],
        order: Order,
    ) -> Result<DenseGrid<'a>, Refused> {
        let mut grid = DenseGrid { description: *description, domain: Window::new(domain), extents, order, tiles: 0 };
        Refused::check(&ffi::dense_check(grid.lent()), Which::First)?;
        grid.tiles = grid.query(domain, &mut [])?.found;
        Ok(grid)
    }

    fn lent(&self) -> Grid<'_> {
        Grid { description: self.description, domain: &self.domain, extents: self.extents, order: self.order }
    }

    /// The number of tiles.
    pub fn tiles(&self) -> u64 {
        self.tiles
    }

    /// Which tiles have a cell in a window? Exactly those are found; none where the window is outside the domain.
    ///
    /// The tiles go to the start of `out`, rising, as many as fit. The rest of it stays as it was, and all of it where
    /// the window is refused: the grid is not.
    pub fn query<'b>(&self, window: &[Range], out: &'b mut [u32]) -> Result<DenseHit<'b>, Refused> {
        let answer = ffi::dense_query(self.lent(), &Window::new(window), out);
        Refused::check(&answer, Which::First)?;
        let found = answer[DENSE_FOUND];
        let fits = out.len().min(found as usize);
        Ok(DenseHit { tiles: &out[..fits], found })
    }

    /// All tiles that have a cell in a window, rising, in a vector of their own.
    pub fn tiles_in(&self, window: &[Range]) -> Result<Vec<u32>, Refused> {
        let mut tiles = vec![0; self.query(window, &mut [])?.found as usize];
        self.query(window, &mut tiles)?;
        Ok(tiles)
    }
}

impl fmt::Debug for DenseGrid<'_> {
    fn fmt(&self, f: &mut fmt::Formatter<'_>) -> fmt::Result {
        let mut shown = f.debug_struct("DenseGrid");
        shown.field("tiles", &self.tiles).field("extents", &self.extents).field("order", &self.order);
        shown.finish_non_exhaustive()
    }
}
