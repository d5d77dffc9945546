//! Read plans: the library, which marks the tiles in a lent work buffer, beside plain Rust that sorts the run, leaves repeats out and merges
//! neighbours.

use crate::committed::next;
use crate::plain::{self, Refused, refusal, refuse};
use crate::{Bench, Run, beside, data, measure};
use std::hint::black_box;

/// So many entries of a run, over so many tiles.
const RUNS: [(usize, u64); 4] = [(32, 1_000), (32, 20_000), (1_000, 20_000), (100_000, 1_000_000)];
const WINDOWS: usize = 32;
/// The bytes of a tile, and those that are read across.
const TILE: u64 = 1_000;
const GAP: u64 = 4_096;

type Answer = [u64; 6];
type Function = unsafe extern "C" fn(u64, u64, *const u8, usize, u64, *const u32, usize, *mut u8, usize, *mut u64, usize, *mut u64);

unsafe extern "C" {
    fn tussockbell_read_plan(
        tiles: u64, size: u64, list: *const u8, list_length: usize, gap: u64, run: *const u32, run_length: usize, work: *mut u8, work_length: usize,
        out: *mut u64, out_length: usize, answer: *mut u64,
    );
    fn tussockbell_read_plan_at(
        tiles: u64, size: u64, list: *const u8, list_length: usize, gap: u64, run: *const u32, run_length: usize, work: *mut u8, work_length: usize,
        out: *mut u64, out_length: usize, answer: *mut u64,
    );
}

fn tile(tiles: u64, size: u64, list: &[u8], i: u32) -> (u64, u64) {
    let entry = |i: u64| list.get(8 + 8 * i as usize..16 + 8 * i as usize).map_or(0, |x| u64::from_le_bytes(x.try_into().unwrap()));
    let (i, next) = (u64::from(i), u64::from(i) + 1);
    (entry(i), if next < tiles { entry(next) } else { size })
}

/// Over an accepted list.
#[inline(never)]
fn plain_at(tiles: u64, size: u64, list: &[u8], gap: u64, run: &[u32], out: &mut [u64]) -> Answer {
    let mut named: Vec<u32> = run.iter().copied().filter(|i| u64::from(*i) < tiles).collect();
    let outside = run.len() - named.len();
    named.sort_unstable();
    named.dedup();
    let (mut ranges, mut bytes, mut open) = (0, 0, None);
    let mut put = |(start, end): (u64, u64)| {
        if let Some([first, second]) = out.get_mut(2 * ranges..2 * ranges + 2) {
            (*first, *second) = (start, end - start);
        }
        (ranges, bytes) = (ranges + 1, bytes + end - start);
    };
    for (start, end) in named.iter().map(|i| tile(tiles, size, list, *i)).filter(|(start, end)| start < end) {
        match open {
            Some((first, last)) if start - last <= gap => open = Some((first, end)),
            before => {
                before.map(&mut put);
                open = Some((start, end));
            }
        }
    }
    open.map(&mut put);
    [0, 0, ranges as u64, named.len() as u64, outside as u64, bytes]
}

#[inline(never)]
fn plain(tiles: u64, size: u64, list: &[u8], gap: u64, run: &[u32], work: usize, out: &mut [u64]) -> Result<Answer, Refused> {
    plain::offsets(tiles, size, list)?;
    if (work as u64) < tiles.div_ceil(8) {
        return refuse(refusal::WORK, 0);
    }
    Ok(plain_at(tiles, size, list, gap, run, out))
}

/// A list, and a run of its tiles: in no order, or rising for each window as a batch leaves them.
struct Planned {
    order: &'static str,
    tiles: u64,
    size: u64,
    list: Vec<u8>,
    run: Vec<u32>,
    ranges: u64,
}

impl Planned {
    fn new(length: usize, tiles: u64, by_windows: bool) -> Planned {
        let mut seed = length as u64;
        let mut run: Vec<u32> = (0..length).map(|_| (next(&mut seed) % tiles) as u32).collect();
        if by_windows {
            run.chunks_mut(length.div_ceil(WINDOWS)).for_each(<[u32]>::sort);
        }
        let list = data::list((0..tiles).map(|i| TILE * i));
        let order = if by_windows { "by windows" } else { "none" };
        Planned { order, tiles, size: TILE * tiles, list, run, ranges: 0 }.agreed()
    }

    fn ours(&self, function: Function, work: &mut [u8], out: &mut [u64]) -> Answer {
        let ((l, ll), (r, rl)) = ((self.list.as_ptr(), self.list.len()), (self.run.as_ptr(), self.run.len()));
        let (w, wl, o, ol, mut answer) = (work.as_mut_ptr(), work.len(), out.as_mut_ptr(), out.len(), [0; 6]);
        // SAFETY: pointers and lengths of slices, and an answer array of the header's places.
        unsafe { function(self.tiles, self.size, l, ll, black_box(GAP), r, rl, w, wl, o, ol, answer.as_mut_ptr()) };
        answer
    }

    fn buffers(&self) -> (Vec<u8>, Vec<u64>) {
        (vec![0; self.tiles.div_ceil(8) as usize], vec![0; 2 * self.run.len()])
    }

    /// All answer the same, and write the same ranges.
    fn agreed(mut self) -> Planned {
        let ((mut work, mut first), (_, mut second)) = (self.buffers(), self.buffers());
        let right = plain(self.tiles, self.size, &self.list, GAP, &self.run, work.len(), &mut second).unwrap();
        for function in [tussockbell_read_plan as Function, tussockbell_read_plan_at] {
            first.fill(0);
            assert_eq!(self.ours(function, &mut work, &mut first), right);
            assert_eq!(first, second);
        }
        self.ranges = right[2];
        self
    }

    /// Over an accepted list, and with the check of the list.
    fn runs(&self) -> [Run<'_>; 4] {
        let [(mut a, mut b), (mut c, mut d), (_, mut e), (f, mut g)] = [(); 4].map(|_| self.buffers());
        let (n, size, list, run) = (self.tiles, self.size, &self.list[..], &self.run[..]);
        [
            Box::new(move || _ = black_box(self.ours(tussockbell_read_plan_at, &mut a, &mut b))),
            Box::new(move || _ = black_box(plain_at(n, size, list, black_box(GAP), run, &mut e))),
            Box::new(move || _ = black_box(self.ours(tussockbell_read_plan, &mut c, &mut d))),
            Box::new(move || _ = black_box(plain(n, size, list, black_box(GAP), run, f.len(), &mut g))),
        ]
    }
}

impl Bench {
    pub fn plan_cases(&mut self) {
        for (length, tiles) in RUNS {
            for by_windows in [false, true] {
                let planned = Planned::new(length, tiles, by_windows);
                let (order, ranges) = (planned.order, planned.ranges);
                let taken = measure(planned.runs().into(), self.rounds);
                for (what, taken) in ["plan", "check and plan"].iter().zip(taken.chunks(2)) {
                    self.rows.push(format!("plan\t{what}\t{length}\t{order}\t{tiles}\t{ranges}\t{}", beside(taken, length as f64)));
                    self.ratio(format!("rust/plan/{what}/{order}/run={length}/n={tiles}"), taken[0], taken[1]);
                }
            }
        }
    }
}
