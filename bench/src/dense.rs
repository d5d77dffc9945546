//! Windows on dense grids: the library beside plain Rust, and beside plain Rust that divides for each tile.

use crate::data::{CAPACITY, FIELDS};
use crate::plain::Kind;
use crate::plain::dense::{self, COLUMN_MAJOR, Grid};
use crate::{Bench, Run, described, lent, measure};
use std::hint::black_box;

/// About a million tiles, along each dimension.
const ALONG: [&[u64]; 4] = [&[1_000_000], &[1_000, 1_000], &[100, 100, 100], &[32, 32, 32, 32]];
const EXTENT: u64 = 7;
/// Windows of a few tiles along each dimension, of half of the tiles, and of as many with no room for them.
const SIZES: [(&str, usize); 3] = [("small", 256), ("large", 4), ("no room", 256)];
const FEW: u64 = 4;

unsafe extern "C" {
    fn tussockbell_dense_query(
        kinds: *const u8, kinds_length: usize, fields: u64, capacity: u64, domain_kinds: *const u8,
        domain_kinds_length: usize, domain_ends: *const u8, domain_ends_length: usize, extents: *const u64,
        extents_length: usize, order: u64, window_kinds: *const u8, window_kinds_length: usize, window_ends: *const u8,
        window_ends_length: usize, out: *mut u32, out_length: usize, answer: *mut u64,
    );
}

fn ours(grid: &Grid, ends: &[u8], out: &mut [u32]) -> [u64; 3] {
    let (k, domain, extents, mut answer) = (&grid.kinds, &grid.ends, &grid.extents, [0; 3]);
    // SAFETY: pointers and lengths of slices, and an answer array of the header's places.
    unsafe {
        tussockbell_dense_query(
            k.as_ptr(), k.len(), FIELDS, CAPACITY, k.as_ptr(), k.len(), domain.as_ptr(), domain.len(), extents.as_ptr(),
            extents.len(), grid.order, k.as_ptr(), k.len(), ends.as_ptr(), ends.len(), out.as_mut_ptr(), out.len(),
            answer.as_mut_ptr(),
        )
    };
    answer
}

fn bytes(kind: Kind, low: u64, high: u64) -> Vec<u8> {
    let width = if kind == Kind::Int32 { 4 } else { 8 };
    [low, high].iter().flat_map(|end| end.to_le_bytes()[..width].to_vec()).collect()
}

/// A grid and windows on it.
struct Asked {
    grid: Grid,
    windows: Vec<Vec<u8>>,
    room: usize,
    found: f64,
}

impl Asked {
    fn new(kind: Kind, along: &[u64], order: u64, size: &str, number: usize) -> Asked {
        let kinds = lent(&vec![kind; along.len()]);
        let ends = along.iter().flat_map(|tiles| bytes(kind, 0, tiles * EXTENT - 1)).collect();
        let grid = Grid { kinds, ends, extents: vec![EXTENT; along.len()], order };
        let windows = (0..number as u64).map(|i| Asked::window(kind, along, size, i)).collect();
        let room = if size == "no room" { 0 } else { along.iter().product::<u64>() as usize };
        Asked { grid, windows, room, found: 0.0 }.agreed()
    }

    /// A window that begins at another place for each number.
    fn window(kind: Kind, along: &[u64], size: &str, number: u64) -> Vec<u8> {
        let side = |(i, tiles): (usize, &u64)| {
            let span = if size == "small" { FEW.min(*tiles) } else { tiles / 2 };
            let first = (number * 7_919 + 31 * i as u64) % (tiles - span + 1);
            bytes(kind, first * EXTENT + 3, (first + span - 1) * EXTENT + 3)
        };
        along.iter().enumerate().flat_map(side).collect()
    }

    /// All three find the same tiles.
    fn agreed(mut self) -> Asked {
        let [mut first, mut second, mut third] = [1, 2, 3].map(|before| vec![before; self.room]);
        for ends in &self.windows {
            let found = dense::query(&self.grid, FIELDS, CAPACITY, &self.grid.kinds, ends, &mut second).unwrap();
            assert_eq!(dense::by_division(&self.grid, FIELDS, CAPACITY, &self.grid.kinds, ends, &mut third), Ok(found));
            assert_eq!(ours(&self.grid, ends, &mut first), [0, 0, found]);
            let fits = self.room.min(found as usize);
            assert!(first[..fits] == second[..fits] && first[..fits] == third[..fits], "other tiles are found");
            self.found += found as f64 / self.windows.len() as f64;
        }
        self
    }

    fn run<'a, A>(&'a self, mut ask: impl FnMut(&[u8], &mut [u32]) -> A + 'a) -> Run<'a> {
        let mut out = vec![0; self.room];
        Box::new(move || self.windows.iter().for_each(|ends| _ = black_box(ask(black_box(ends), &mut out))))
    }

    fn runs(&self) -> [Run<'_>; 3] {
        let (grid, kinds) = (&self.grid, &self.grid.kinds);
        [
            self.run(move |ends, out| ours(grid, ends, out)),
            self.run(move |ends, out| dense::query(grid, FIELDS, CAPACITY, kinds, ends, out)),
            self.run(move |ends, out| dense::by_division(grid, FIELDS, CAPACITY, kinds, ends, out)),
        ]
    }
}

impl Bench {
    /// Integer kinds, numbers of dimensions, both orders, and the sizes of windows.
    pub fn dense_cases(&mut self) {
        for kind in [Kind::Int32, Kind::Int64, Kind::Uint64] {
            for along in ALONG {
                eprintln!("bench: dense {} D={}", described(&[kind]), along.len());
                for (order, (size, number)) in (0..=COLUMN_MAJOR).flat_map(|order| SIZES.map(|size| (order, size))) {
                    self.dense_case(kind, along, order, size, number);
                }
            }
        }
    }

    fn dense_case(&mut self, kind: Kind, along: &[u64], order: u64, size: &str, number: usize) {
        let asked = Asked::new(kind, along, order, size, number);
        let taken = measure(asked.runs().into(), self.rounds);
        let [ours, rust, division] = [taken[0], taken[1], taken[2]].map(|t| t / number as f64);
        let (found, order) = (asked.found, ["row-major", "column-major"][order as usize]);
        let (name, d) = (described(&[kind]), along.len());
        let times = format!("{ours:.1}\t{rust:.1}\t{division:.1}");
        self.rows.push(format!("dense\t{name}\t{d}\t{order}\t{size}\t{found:.1}\t{times}"));
        self.ratio(format!("rust/dense/{name}/D={d}/{order}/{size}"), ours, rust);
        if size != "no room" {
            self.ratio(format!("division/dense/{name}/D={d}/{order}/{size}"), ours, division);
        }
    }
}
