//! A window on a dense grid in plain Rust: the same checks, and the tiles written row by row; or each tile's number
//! worked out by itself, with divisions.

use super::*;

/// TileDB's number of the order in which the first dimension is the fastest.
pub const COLUMN_MAJOR: u64 = 1;

/// A grid as the C functions take it.
pub struct Grid {
    pub kinds: Vec<u8>,
    pub ends: Vec<u8>,
    pub extents: Vec<u64>,
    pub order: u64,
}

/// The tiles along a dimension, the first that the window meets, and how many it meets.
#[derive(Clone, Copy, Default)]
struct Axis {
    tiles: u64,
    first: u64,
    span: u64,
}

impl Range {
    /// The ends as numbers without a sign, in the same order.
    fn keys(&self) -> Option<(u64, u64)> {
        let key = |x: i64| x as u64 ^ 1 << 63;
        match self {
            Range::Int32(ends) => Some((key(ends.0.into()), key(ends.1.into()))),
            Range::Int64(ends) => Some((key(ends.0), key(ends.1))),
            Range::Uint64(ends) => Some((ends.0, ends.1)),
            Range::Float32(_) | Range::Float64(_) => None,
        }
    }
}

/// The number of tiles along a dimension, where it splits into whole ones; of 2^64 tiles one less, too many as well.
fn tiles_along(domain: &Range, extent: u64) -> Option<u64> {
    let (low, high) = domain.keys()?;
    let last = high - low;
    (extent != 0 && last % extent == extent - 1).then(|| (last / extent).saturating_add(1))
}

fn axis(domain: &Range, extent: u64, tiles: u64, window: &Range) -> Axis {
    let (Some((low, high)), Some((from, to))) = (domain.keys(), window.keys()) else { return Axis::default() };
    let (from, to) = (from.max(low), to.min(high));
    if from > to {
        return Axis { tiles, first: 0, span: 0 };
    }
    let first = (from - low) / extent;
    Axis { tiles, first, span: (to - low) / extent - first + 1 }
}

/// The axes of a grid that is accepted, the slowest first, with the window on them.
fn axes(
    grid: &Grid, fields: u64, capacity: u64, window_kinds: &[u8], window_ends: &[u8],
) -> Result<([Axis; 4], usize), Refused> {
    let d = Description::new(&grid.kinds, fields, capacity)?;
    if grid.order > COLUMN_MAJOR {
        return refuse(refusal::DESCRIPTION, 0);
    }
    if let Some(i) = d.kinds().iter().position(|kind| *kind == Kind::Float32) {
        return refuse(refusal::RETIRED, i);
    }
    let domain = d.window(&grid.kinds, &grid.ends)?;
    let (mut tiles, mut all) = ([0; 4], 1u64);
    for i in 0..d.dimensions {
        match tiles_along(&domain[i], grid.extents.get(i).copied().unwrap_or(0)) {
            Some(along) => tiles[i] = along,
            None => return refuse(refusal::GRID, i),
        }
        all = all.saturating_mul(tiles[i]);
    }
    if all > *limits::TILES.end() {
        return refuse(refusal::TILES, 0);
    }
    let window = d.window(window_kinds, window_ends)?;
    let mut axes = [Axis::default(); 4];
    for i in 0..d.dimensions {
        let at = if grid.order == COLUMN_MAJOR { d.dimensions - 1 - i } else { i };
        axes[at] = axis(&domain[i], grid.extents[i], tiles[i], &window[i]);
    }
    Ok((axes, d.dimensions))
}

/// Writes the tiles from the start of the buffer on, and returns what is left of it.
fn fill<'a>(axes: &[Axis], tile: u64, mut out: &'a mut [u32]) -> &'a mut [u32] {
    let Some((axis, faster)) = axes.split_first() else { return out };
    let start = tile * axis.tiles + axis.first;
    if faster.is_empty() {
        let (row, left) = out.split_at_mut(out.len().min(axis.span as usize));
        row.iter_mut().zip(start as u32..).for_each(|(place, tile)| *place = tile);
        return left;
    }
    for tile in start..start + axis.span {
        if out.is_empty() {
            break;
        }
        out = fill(faster, tile, out);
    }
    out
}

fn found(axes: &[Axis]) -> u64 {
    axes.iter().map(|axis| axis.span).product()
}

pub fn query(
    grid: &Grid, fields: u64, capacity: u64, kinds: &[u8], ends: &[u8], out: &mut [u32],
) -> Result<u64, Refused> {
    let (axes, dimensions) = axes(grid, fields, capacity, kinds, ends)?;
    let found = found(&axes[..dimensions]);
    if found > 0 {
        fill(&axes[..dimensions], 0, out);
    }
    Ok(found)
}

/// The same, with each tile's place on each axis divided out of its place in the listing.
pub fn by_division(
    grid: &Grid, fields: u64, capacity: u64, kinds: &[u8], ends: &[u8], out: &mut [u32],
) -> Result<u64, Refused> {
    let (axes, dimensions) = axes(grid, fields, capacity, kinds, ends)?;
    let found = found(&axes[..dimensions]);
    for (i, place) in out.iter_mut().take(found as usize).enumerate() {
        let (mut rest, mut step, mut tile) = (i as u64, 1, 0);
        for axis in axes[..dimensions].iter().rev() {
            tile += (axis.first + rest % axis.span) * step;
            step *= axis.tiles;
            rest /= axis.span;
        }
        *place = tile as u32;
    }
    Ok(found)
}
