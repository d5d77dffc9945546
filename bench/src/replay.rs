//! A log of 10,000 records replayed with ample room, beside plain Rust that reads, asks and writes the same, and beside as many single queries
//! from C.

use crate::data::{self, CAPACITY, Cells, FIELDS};
use crate::plain::{self, Kind};
use crate::{Bench, Run, described, lent, measure, peers};
use std::fmt::Write;
use std::hint::black_box;

const RECORDS: usize = 10_000;
/// One record in so many has another looked-at number than the tree has.
const OTHER: usize = 10;
/// No line of the text is longer.
const LINE: usize = 113;
const FANOUT: usize = 16;
/// The boxes that a query looks at, about, and the tiles of the tree that it is asked of.
const BOXES: [(usize, usize); 2] = [(100, 1_000), (1_000, 65_536)];
const TRIED: usize = 200;

unsafe extern "C" {
    fn tussockbell_replay(
        kinds: *const u8, kinds_length: usize, fields: u64, capacity: u64, tiles: u64, tree: *const u8, tree_length: usize, log: *const u8,
        log_length: usize, out: *mut u8, out_length: usize, answer: *mut u64,
    );
}

/// A tree, windows over it, and their log.
struct Logged {
    kinds: Vec<u8>,
    tiles: u64,
    tree: Vec<u8>,
    windows: Vec<Vec<u8>>,
    log: Vec<u8>,
    looked: f64,
}

impl Logged {
    /// Windows that look at about so many boxes each.
    fn new(kinds: &[Kind], leaves: &[Cells], boxes: usize) -> Logged {
        let tree = data::tree(kinds, leaves, FANOUT);
        let mut made = Logged { kinds: lent(kinds), tiles: leaves.len() as u64, tree, windows: vec![], log: vec![], looked: 0.0 };
        let (mut least, mut most) = (1e-12f64, 1.0);
        for _ in 0..40 {
            let part = (least * most).sqrt();
            made.ask(kinds, &data::windows(kinds.len(), part, TRIED));
            if made.looked < boxes as f64 {
                least = part;
            } else {
                most = part;
            }
        }
        made.ask(kinds, &data::windows(kinds.len(), most, RECORDS));
        made
    }

    /// The log of windows, with what plain Rust answers now.
    fn ask(&mut self, kinds: &[Kind], windows: &[Cells]) {
        self.windows = windows.iter().map(|cells| data::bytes(kinds, cells)).collect();
        let (mut text, mut all) = (String::new(), 0);
        for (i, cells) in windows.iter().enumerate() {
            for end in data::numbers(kinds, std::slice::from_ref(cells)) {
                write!(text, "{end:.0}\t").unwrap();
            }
            let (found, looked) =
                plain::query(&self.kinds, FIELDS, CAPACITY, self.tiles, &self.tree, &self.kinds, &self.windows[i], &mut []).unwrap();
            writeln!(text, "{found}\t{}", looked + u64::from(i % OTHER == 0)).unwrap();
            all += looked;
        }
        (self.log, self.looked) = (text.into_bytes(), all as f64 / windows.len() as f64);
    }

    fn ours(&self, out: &mut [u8]) -> [u64; 3] {
        let (k, mut answer) = (&self.kinds, [0; 3]);
        unsafe {
            tussockbell_replay(
                k.as_ptr(), k.len(), FIELDS, CAPACITY, self.tiles, self.tree.as_ptr(), self.tree.len(), self.log.as_ptr(), self.log.len(),
                out.as_mut_ptr(), out.len(), answer.as_mut_ptr(),
            )
        };
        answer
    }

    fn plain(&self, out: &mut [u8]) -> Result<u64, plain::Refused> {
        plain::replay::replay(&self.kinds, FIELDS, CAPACITY, self.tiles, &self.tree, black_box(&self.log), out)
    }

    fn single(&self) -> u64 {
        let ask = |window: &Vec<u8>| {
            peers::query(&self.kinds, FIELDS, CAPACITY, self.tiles, &self.tree, &self.kinds, black_box(window), &mut [])[3]
        };
        self.windows.iter().map(ask).sum()
    }

    /// Both write the same text.
    fn agree(&self) {
        let [mut first, mut second] = [vec![1; LINE * RECORDS], vec![2; LINE * RECORDS]];
        let length = self.plain(&mut second).unwrap();
        assert_eq!(self.ours(&mut first), [0, 0, length]);
        assert!(first[..length as usize] == second[..length as usize], "another text is written");
        assert_eq!(self.single(), (self.looked * RECORDS as f64).round() as u64);
    }

    fn runs(&self) -> [Run<'_>; 3] {
        let [mut first, mut second] = [vec![0; LINE * RECORDS], vec![0; LINE * RECORDS]];
        [
            Box::new(move || _ = black_box(self.ours(&mut first))),
            Box::new(move || _ = black_box(self.plain(&mut second))),
            Box::new(move || _ = black_box(self.single())),
        ]
    }
}

impl Bench {
    /// Integer kinds in turn, and the numbers of boxes that a query looks at.
    pub fn replay_cases(&mut self) {
        for kinds in [1, 2, 4].into_iter().flat_map(|d| [Kind::Int32, Kind::Int64, Kind::Uint64].map(|kind| vec![kind; d])) {
            let (kind, d) = (described(&kinds), kinds.len());
            for (boxes, tiles) in BOXES {
                eprintln!("bench: replay {kind} D={d}, {boxes} boxes");
                let logged = Logged::new(&kinds, &data::leaves(d, tiles), boxes);
                logged.agree();
                let taken: Vec<f64> = measure(logged.runs().into(), self.rounds).iter().map(|t| t / RECORDS as f64).collect();
                let [ours, rust, single] = [taken[0], taken[1], taken[2]];
                let bytes = logged.log.len() / RECORDS;
                self.rows.push(format!("replay\t{kind}\t{d}\t{tiles}\t{bytes}\t{:.1}\t{ours:.1}\t{rust:.1}\t{single:.1}", logged.looked));
                self.ratio(format!("rust/replay/{kind}/D={d}/boxes={boxes}"), ours, rust);
                self.ratio(format!("queries/replay/{kind}/D={d}/boxes={boxes}"), ours, single);
            }
        }
    }
}
