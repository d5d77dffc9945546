//! Tile offsets, var offsets and tile sizes.

use crate::ffi;
use crate::places::{EXTENT_LENGTH, EXTENT_OFFSET, OFFSETS_TILES, SIZES_SUM};
use crate::tiles::tiles;
use crate::{Refused, Which};

/// Where some bytes are in a data file: a tile's, or those of a range of a read plan.
#[derive(Clone, Copy, Debug, Default, PartialEq, Eq, Hash)]
#[repr(C)]
pub struct Extent {
    /// The position of the first byte.
    pub offset: u64,
    /// How many bytes there are.
    pub length: u64,
}

/// Accepted tile offsets: where each tile's bytes are. [`tile_offsets`] and [`var_tile_offsets`] make it.
#[derive(Clone, Copy)]
pub struct Offsets<'a> {
    tiles: u64,
    size: u64,
    list: &'a [u8],
}

/// Checks the tile offsets of `tiles` tiles in a data file of `size` bytes.
///
/// ```
/// use tussockbell::{tile_offsets, Extent};
///
/// let list = [3u64, 0, 100, 250].map(u64::to_le_bytes).concat();
/// let offsets = tile_offsets(3, 300, &list)?;
/// assert_eq!(offsets.get(1), Some(Extent { offset: 100, length: 150 }));
/// assert_eq!(offsets.get(3), None);
/// assert_eq!(offsets.iter().map(|extent| extent.length).sum::<u64>(), 300);
///
/// let refused = tile_offsets(3, 250, &list).unwrap_err();
/// assert_eq!(refused.to_string(), "refused 18 at 24: tile offsets break their rule");
/// # Ok::<(), tussockbell::Refused>(())
/// ```
pub fn tile_offsets(tiles: u64, size: u64, list: &[u8]) -> Result<Offsets<'_>, Refused> {
    let answer = ffi::offsets(tiles, size, list);
    Refused::check(&answer, Which::First)?;
    Ok(Offsets { tiles: answer[OFFSETS_TILES], size, list })
}

/// Checks the var offsets of `tiles` tiles in a var data file of `size` bytes, of which a tile may have none.
///
/// ```
/// use tussockbell::{tile_offsets, var_tile_offsets, Extent};
///
/// let list = [3u64, 0, 100, 300].map(u64::to_le_bytes).concat();
/// assert_eq!(var_tile_offsets(3, 300, &list)?.get(2), Some(Extent { offset: 300, length: 0 }));
/// assert!(tile_offsets(3, 300, &list).is_err());
/// # Ok::<(), tussockbell::Refused>(())
/// ```
pub fn var_tile_offsets(tiles: u64, size: u64, list: &[u8]) -> Result<Offsets<'_>, Refused> {
    let answer = ffi::var_offsets(tiles, size, list);
    Refused::check(&answer, Which::First)?;
    Ok(Offsets { tiles: answer[OFFSETS_TILES], size, list })
}

// Both checks answer the same of an accepted list, so that one reading serves tile offsets and var offsets.
tiles!(Offsets, Extent, "Where the bytes are", |offsets, tile| {
    let answer = ffi::extent_at(offsets.tiles, offsets.size, offsets.list, tile);
    Extent { offset: answer[EXTENT_OFFSET], length: answer[EXTENT_LENGTH] }
});

impl<'a> Offsets<'a> {
    /// What the library is lent: the number of tiles, the size of the data file and the list.
    pub(crate) fn lent(&self) -> (u64, u64, &'a [u8]) {
        (self.tiles, self.size, self.list)
    }
}

/// Checks the tile sizes of `tiles` tiles, and adds them up.
///
/// ```
/// let list = [2u64, 40, 60].map(u64::to_le_bytes).concat();
/// assert_eq!(tussockbell::tile_sizes(2, &list), Ok(100));
/// ```
pub fn tile_sizes(tiles: u64, list: &[u8]) -> Result<u64, Refused> {
    let answer = ffi::sizes(tiles, list);
    Refused::check(&answer, Which::First)?;
    Ok(answer[SIZES_SUM])
}
