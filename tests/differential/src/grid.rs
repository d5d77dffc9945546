//! Dense fragments by the rules of docs/RULES.md: a grid's checks, the tiles that have a cell in a window, by going
//! through the cells or through the tiles one by one, and a dense footer by what the sparse entry says of one that
//! differs in what the rules name.

use crate::rules::{self, limits, refusal, refuse, Answer, Description, End, Range};
use std::collections::BTreeSet;

pub const ROW_MAJOR: u64 = 0;
pub const COLUMN_MAJOR: u64 = 1;
/// A domain of no more cells is gone through cell by cell.
const FEW_CELLS: i128 = 4_096;

/// A grid as C has it.
#[derive(Clone, Debug)]
pub struct Grid {
    pub d: Description,
    pub kinds: Vec<u8>,
    pub ends: Vec<u8>,
    pub extents: Vec<u64>,
    pub order: u64,
}

/// One dimension of a grid: its least cell, the cells of a tile, and the number of tiles.
#[derive(Clone, Copy)]
pub struct Side {
    pub least: i128,
    pub extent: i128,
    pub tiles: i128,
}

/// An end of an integer kind.
fn whole(end: End) -> Option<i128> {
    match end {
        End::Int(x) => Some(x.into()),
        End::Unsigned(x) => Some(x.into()),
        _ => None,
    }
}

pub fn check(grid: &Grid) -> Answer<Vec<Side>> {
    grid.d.check_limits()?;
    if grid.order != ROW_MAJOR && grid.order != COLUMN_MAJOR {
        return refuse(refusal::DESCRIPTION, 0);
    }
    grid.d.check()?;
    let domain = rules::checked_window(&grid.d, &grid.kinds, &grid.ends)?;
    let mut sides = vec![];
    for (i, (low, high)) in domain.into_iter().enumerate() {
        let extent = grid.extents.get(i).map_or(0, |extent| i128::from(*extent));
        let (Some(least), Some(most)) = (whole(low), whole(high)) else { return refuse(refusal::GRID, i) };
        let cells = most - least + 1;
        if extent == 0 || cells % extent != 0 {
            return refuse(refusal::GRID, i);
        }
        sides.push(Side { least, extent, tiles: cells / extent });
    }
    if all_tiles(&sides) > i128::from(*limits::TILES.end()) {
        return refuse(refusal::TILES, 0);
    }
    Ok(sides)
}

fn all_tiles(sides: &[Side]) -> i128 {
    sides.iter().fold(1, |all, side| all.saturating_mul(side.tiles))
}

fn all_cells(sides: &[Side]) -> i128 {
    sides.iter().fold(1, |all, side| all.saturating_mul(side.tiles).saturating_mul(side.extent))
}

/// The dimensions from the slowest to the fastest.
fn slowest_first(dimensions: usize, order: u64) -> Vec<usize> {
    let rising = 0..dimensions;
    if order == ROW_MAJOR { rising.collect() } else { rising.rev().collect() }
}

fn inside(x: i128, (low, high): (i128, i128)) -> bool {
    low <= x && x <= high
}

/// The tiles of all cells of the domain that lie in the window.
pub fn by_cells(sides: &[Side], window: &[(i128, i128)], order: u64) -> Vec<u32> {
    let (mut found, dimensions) = (BTreeSet::new(), slowest_first(sides.len(), order));
    for number in 0..all_cells(sides) {
        let (mut rest, mut cell) = (number, vec![]);
        for side in sides {
            let along = side.tiles * side.extent;
            cell.push(side.least + rest % along);
            rest /= along;
        }
        if cell.iter().zip(window).all(|(x, range)| inside(*x, *range)) {
            let place = |i: usize| (cell[i] - sides[i].least) / sides[i].extent;
            found.insert(dimensions.iter().fold(0, |tile, i| tile * sides[*i].tiles + place(*i)) as u32);
        }
    }
    found.into_iter().collect()
}

/// All tiles whose cells, from the first to the last along each dimension, meet the window.
pub fn by_tiles(sides: &[Side], window: &[(i128, i128)], order: u64) -> Vec<u32> {
    let meets = |(side, (low, high)): (&Side, &(i128, i128))| -> Vec<bool> {
        let first = |place: i128| side.least + place * side.extent;
        (0..side.tiles).map(|place| first(place) <= *high && *low < first(place + 1)).collect()
    };
    let along: Vec<Vec<bool>> = sides.iter().zip(window).map(meets).collect();
    let dimensions = slowest_first(sides.len(), order);
    let touched = |tile: &u32| {
        let mut rest = *tile as usize;
        dimensions.iter().rev().all(|i| {
            let place = rest % along[*i].len();
            rest /= along[*i].len();
            along[*i][place]
        })
    };
    (0..all_tiles(sides) as u32).filter(touched).collect()
}

/// The window's ranges in whole numbers, for a grid that is accepted.
pub fn numbers(window: Vec<Range>) -> Vec<(i128, i128)> {
    window.into_iter().map(|(low, high)| (whole(low).unwrap(), whole(high).unwrap())).collect()
}

pub fn query(grid: &Grid, kinds: &[u8], ends: &[u8]) -> Answer<Vec<u32>> {
    let sides = check(grid)?;
    let window = numbers(rules::checked_window(&grid.d, kinds, ends)?);
    let found = by_tiles(&sides, &window, grid.order);
    assert!(all_cells(&sides) > FEW_CELLS || by_cells(&sides, &window, grid.order) == found, "cells and tiles differ");
    Ok(found)
}

/// As the sparse entry reads the same bytes with the other dense flag, with one tile where there are none and none
/// where there are some, and with one cell in the last tile; before that a float kind is refused.
pub fn footer(d: &Description, file_size: u64, data: &[u8]) -> Answer<rules::Footer> {
    d.check()?;
    if let Some(i) = d.kinds.iter().position(|kind| [rules::FLOAT32.number, rules::FLOAT64.number].contains(kind)) {
        return refuse(refusal::GRID, i);
    }
    let size = rules::number(data, 4, 8).min(1 << 20) as usize;
    let (flag, tiles) = (12 + size, 14 + size + d.box_bytes());
    let mut other = data.to_vec();
    if data.len() < tiles + 16 {
        return rules::footer(d, file_size, data);
    }
    other[flag] = if data[flag] > 1 { data[flag] } else { 1 - data[flag] };
    other[tiles..tiles + 8].copy_from_slice(&u64::from(rules::number(data, tiles, 8) == 0).to_le_bytes());
    other[tiles + 8..tiles + 16].copy_from_slice(&1u64.to_le_bytes());
    let mut f = rules::footer(d, file_size, &other)?;
    let last_cells = rules::number(data, tiles + 8, 8);
    (f.tiles, f.last_cells) = (0, last_cells);
    f.numbers[2..6].copy_from_slice(&[1, 0, 0, last_cells]);
    Ok(f)
}
