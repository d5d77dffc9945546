//! The read plan: which bytes of a data file are read for a run of tiles; and extents and cells of many tiles.

use crate::ffi::{self, Run};
use crate::places::{PLAN_BYTES, PLAN_OUTSIDE, PLAN_PLACES, PLAN_RANGES, PLAN_TILES};
use crate::tiles::lends;
use crate::{Extent, Footer, Offsets, Refused, Which};

/// Which bytes of a data file are read for a run of tiles. A `for` loop over it goes through the ranges.
#[derive(Clone, Copy, Debug, PartialEq, Eq)]
pub struct Plan<'b> {
    /// The ranges, rising: the part of the lent buffer that was written. In a short buffer these are the first.
    pub ranges: &'b [Extent],
    /// How many ranges there are, also where not all of them fit.
    pub found: u64,
    /// How many different tiles the run names, those without bytes too.
    pub tiles: u64,
    /// How many numbers of the run are no tile's.
    pub outside: u64,
    /// How many bytes all ranges have.
    pub bytes: u64,
}

lends!(Plan, ranges, Extent);

impl<'b> Plan<'b> {
    fn new(answer: [u64; PLAN_PLACES], out: &'b [Extent]) -> Result<Plan<'b>, Refused> {
        Refused::check(&answer, Which::First)?;
        let found = answer[PLAN_RANGES];
        let ranges = &out[..found.min(out.len() as u64) as usize];
        Ok(Plan { ranges, found, tiles: answer[PLAN_TILES], outside: answer[PLAN_OUTSIDE], bytes: answer[PLAN_BYTES] })
    }
}

/// How many bytes the work buffer of a read plan has to have for so many tiles.
pub const fn work_bytes(tiles: u64) -> u64 {
    tiles.div_ceil(8)
}

/// Checks the tile offsets of `tiles` tiles in a data file of `size` bytes, and plans what is read for those in `run`.
///
/// The run may have any order and repeats, as the found tiles of a whole batch do. Rising by tile, two neighbours among
/// the named tiles are in one range exactly if at most `gap` bytes lie between them. As many ranges as fit go to the
/// start of `out`, and the rest of it stays as it was, all of it where it is refused. What `work` holds does not matter,
/// before or after; fewer than [`work_bytes`] of it are refused with [`Refused::WORK`].
///
/// ```
/// use tussockbell::{read_plan, Extent};
///
/// let list = [3u64, 0, 100, 250].map(u64::to_le_bytes).concat();
/// let (mut work, mut out) = ([0; 1], [Extent::default(); 3]);
/// let plan = read_plan(3, 300, &list, 149, &[2, 0, 2], &mut work, &mut out)?;
/// assert_eq!(plan.ranges, [Extent { offset: 0, length: 100 }, Extent { offset: 250, length: 50 }]);
/// assert_eq!((plan.tiles, plan.bytes, plan.outside), (2, 150, 0));
/// let plan = read_plan(3, 300, &list, 150, &[2, 0, 2], &mut work, &mut out)?;
/// assert_eq!(plan.ranges, [Extent { offset: 0, length: 300 }]);
/// # Ok::<(), tussockbell::Refused>(())
/// ```
pub fn read_plan<'b>(
    tiles: u64,
    size: u64,
    list: &[u8],
    gap: u64,
    run: &[u32],
    work: &mut [u8],
    out: &'b mut [Extent],
) -> Result<Plan<'b>, Refused> {
    Plan::new(ffi::read_plan(Run { tiles, size, list, run }, gap, work, out), out)
}

/// [`read_plan`] for var offsets. A tile that has no bytes takes no part: it neither makes a range nor joins two.
///
/// ```
/// use tussockbell::{var_read_plan, Extent};
///
/// let list = [3u64, 0, 100, 100].map(u64::to_le_bytes).concat();
/// let (mut work, mut out) = ([0; 1], [Extent::default(); 3]);
/// let plan = var_read_plan(3, 300, &list, 0, &[0, 1], &mut work, &mut out)?;
/// assert_eq!((plan.tiles, plan.ranges), (2, &[Extent { offset: 0, length: 100 }][..]));
/// # Ok::<(), tussockbell::Refused>(())
/// ```
pub fn var_read_plan<'b>(
    tiles: u64,
    size: u64,
    list: &[u8],
    gap: u64,
    run: &[u32],
    work: &mut [u8],
    out: &'b mut [Extent],
) -> Result<Plan<'b>, Refused> {
    Plan::new(ffi::var_read_plan(Run { tiles, size, list, run }, gap, work, out), out)
}

impl Offsets<'_> {
    fn run<'b>(&'b self, run: &'b [u32]) -> Run<'b> {
        let (tiles, size, list) = self.lent();
        Run { tiles, size, list, run }
    }

    /// Plans what is read for the tiles of a run. As [`read_plan`], with no check of this list, which is an accepted
    /// one.
    ///
    /// ```
    /// use tussockbell::{tile_offsets, work_bytes, Extent};
    ///
    /// let list = [3u64, 0, 100, 250].map(u64::to_le_bytes).concat();
    /// let offsets = tile_offsets(3, 300, &list)?;
    /// let (mut work, mut out) = (vec![0; work_bytes(3) as usize], [Extent::default(); 3]);
    /// for range in offsets.plan(&[1, 2], 0, &mut work, &mut out)? {
    ///     assert_eq!((range.offset, range.length), (100, 200));
    /// }
    /// # Ok::<(), tussockbell::Refused>(())
    /// ```
    pub fn plan<'b>(&self, run: &[u32], gap: u64, work: &mut [u8], out: &'b mut [Extent]) -> Result<Plan<'b>, Refused> {
        Plan::new(ffi::read_plan_at(self.run(run), gap, work, out), out)
    }

    /// Where the bytes of many tiles are, in the order of the run, as many as fit in `out`; 0 and 0 for a number that is
    /// no tile's.
    ///
    /// ```
    /// use tussockbell::{tile_offsets, Extent};
    ///
    /// let list = [3u64, 0, 100, 250].map(u64::to_le_bytes).concat();
    /// let mut out = [Extent::default(); 3];
    /// tile_offsets(3, 300, &list)?.extents(&[2, 3, 0], &mut out);
    /// assert_eq!(out.map(|extent| (extent.offset, extent.length)), [(250, 50), (0, 0), (0, 100)]);
    /// # Ok::<(), tussockbell::Refused>(())
    /// ```
    pub fn extents(&self, run: &[u32], out: &mut [Extent]) {
        ffi::run_extents_at(self.run(run), out);
    }
}

impl Footer<'_> {
    /// The cells of many tiles, in the order of the run, as many as fit in `out`; 0 for a number that is no tile's.
    ///
    /// ```
    /// # use tussockbell::{read_footer, Description, Kind};
    /// # let bytes = std::fs::read("../../tests/fixtures/sample/footer")?;
    /// # let description = Description { kinds: &[Kind::Int32], fields: 1, capacity: 32 };
    /// let mut out = [0; 4];
    /// read_footer(&description, 1166, &bytes)?.cells_of(&[2, 0, 3, 1], &mut out);
    /// assert_eq!(out, [5, 32, 0, 32]);
    /// # Ok::<(), Box<dyn std::error::Error>>(())
    /// ```
    pub fn cells_of(&self, run: &[u32], out: &mut [u64]) {
        ffi::run_cells_at(self.tiles(), self.last_tile_cells(), self.capacity(), run, out);
    }
}
