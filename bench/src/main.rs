//! Measures the compiled library beside plain Rust and two R-tree libraries, on the same bytes and windows, in one run. Answers are compared
//! before anything is timed. A measure is the median of rounds, in each of which all contenders run one after the other.
//!
//!     bench [KIND] [ROUNDS] [TILES]
//!
//! KIND is how the kinds that are measured begin, ROUNDS and TILES, the most tiles, are for a quick look. Prints tab-parted tables, each with a header, and at the end
//! `ratio`, case, and ours / theirs, where below 1 is faster.

mod committed;
mod convert;
mod data;
mod dense;
mod peers;
mod plain;
mod plan;
mod replay;
mod values;

use data::{CAPACITY, Cells, FIELDS};
use peers::Peer;
use plain::Kind;
use std::cell::RefCell;
use std::hint::black_box;
use std::ops::Range;
use std::rc::Rc;
use std::time::{Duration, Instant};

const FANOUTS: [usize; 4] = [2, 10, 16, 1024];
const TILES: [usize; 2] = [1_000, 65_536];
/// From few tiles to as many as there may be, for queries that find about the same number in each.
const GROWING_TILES: [usize; 4] = [1_000, 65_536, 1_000_000, 16_777_216];
const GROWING_FANOUTS: [usize; 3] = [2, 16, 1024];
/// Past these libspatialindex, which has an object for each box, takes too much memory, and Boost is built at one capacity.
const MOST_FOR_PEERS: usize = 1_000_000;
const BOOST_PAST: [usize; 1] = [16];
const MIX: [Kind; 4] = [Kind::Float64, Kind::Int32, Kind::Uint64, Kind::Int64];
/// So many small windows that their branches can't be learnt by heart.
const SMALL: usize = 1024;
const LARGE: usize = 32;
/// Windows that miss the root are asked over trees of so many tiles, at these fanouts.
const ONE_BOX_TILES: usize = 1_000;
const ONE_BOX_FANOUTS: [usize; 2] = [2, 16];
/// So many windows to a batch, over trees of this fanout.
const BATCH: usize = 32;
const BATCH_FANOUT: usize = 16;
/// So many times the rounds for a batch beside single calls and for blocks beside the whole, since the two times are nearly the same.
const CLOSE_ROUNDS: usize = 5;
const LEAST: Duration = Duration::from_micros(600);
const TRIALS: usize = 3;

/// A tree in parts comes in blocks of these sizes.
const BLOCKS: [usize; 3] = [4_096, 65_536, 1_048_576];

const TABLES: [(&str, &str); 17] = [
    ("run", "rounds\tleast us\ttrials\tsmall windows\tlarge windows\tboost capacities\tlibspatialindex capacities"),
    (
        "query",
        "kind\tD\tf\tn\twindow\tfound\tlooked\tours ns\tours ns/box\trust ns\trust ns/box\tboost ns\tboost capacity\tlibspatialindex ns\t\
         libspatialindex capacity",
    ),
    ("open", "kind\tD\tf\tn\tbytes\tours ns\tours ns/byte\trust ns\trust ns/byte"),
    ("write", "kind\tD\tf\tn\tbytes\tours ns\tours ns/byte\trust ns\trust ns/byte"),
    ("convert", "kind\tD\tf\tn\tbytes\tours ns\tours ns/byte\trust ns\trust ns/byte\tcheck ns"),
    ("list", "list\tn\tours ns\tours ns/entry\trust ns\trust ns/entry"),
    ("looks", "looked\tours ns\tours ns/box\trust ns\trust ns/box"),
    (
        "tiles",
        "f\tn\tfound\tlooked\tours ns\tours ns/box\trust ns\trust ns/box\tboost ns\tboost capacity\tlibspatialindex ns\tlibspatialindex capacity",
    ),
    ("one box", "kind\tD\tf\tn\tours ns\trust ns\tboost ns\tboost capacity"),
    ("bytes", "bytes\tours ns\tours ns/byte\trust ns\trust ns/byte"),
    ("parts", "kind\tD\tf\tn\tbytes\tblock\tparts ns\twhole ns\trust ns"),
    ("committed", "names\tlines\tbytes\tfound\tours ns\tours ns/line\trust ns\trust ns/line"),
    ("batch", "kind\tD\tn\twindow\tfound\tlooked\tbatch ns\tsingle ns"),
    ("values", "what\tof\tn\tours ns\tours ns/value\trust ns\trust ns/value"),
    ("replay", "kind\tD\tn\tbytes\tlooked\tours ns\trust ns\tsingle ns"),
    ("dense", "kind\tD\torder\twindow\tfound\tours ns\trust ns\tdivision ns"),
    ("plan", "what\trun\torder\tn\tranges\tours ns\tours ns/tile\trust ns\trust ns/tile"),
];

type Run<'a> = Box<dyn FnMut() + 'a>;

fn time(run: &mut Run, times: u32) -> Duration {
    let start = Instant::now();
    (0..times).for_each(|_| run());
    start.elapsed()
}

/// Nanoseconds of one run of each contender: medians of rounds, every other one of which goes backward.
fn measure(mut contenders: Vec<Run>, rounds: usize) -> Vec<f64> {
    let often = |run: &mut Run| {
        let first = time(run, 1);
        let once = if first < LEAST { time(run, 3) / 3 } else { first };
        (LEAST.as_nanos() / once.as_nanos().max(1)).clamp(1, 1_000_000) as u32
    };
    let times: Vec<u32> = contenders.iter_mut().map(often).collect();
    let mut taken = vec![vec![]; contenders.len()];
    for round in 0..rounds {
        for place in 0..contenders.len() {
            let i = if round % 2 == 0 { place } else { contenders.len() - 1 - place };
            taken[i].push(time(&mut contenders[i], times[i]).as_nanos() as f64 / times[i] as f64);
        }
    }
    let median = |all: &mut Vec<f64>| {
        all.sort_by(f64::total_cmp);
        (all[(rounds - 1) / 2] + all[rounds / 2]) / 2.0
    };
    taken.iter_mut().map(median).collect()
}

/// Our time and plain Rust's, each with what it is for one of `count`.
fn beside(taken: &[f64], count: f64) -> String {
    format!("{:.1}\t{:.3}\t{:.1}\t{:.3}", taken[0], taken[0] / count, taken[1], taken[1] / count)
}

fn described(kinds: &[Kind]) -> &'static str {
    match kinds[0] {
        _ if kinds.iter().any(|kind| *kind != kinds[0]) => "mix",
        Kind::Int32 => "int32",
        Kind::Int64 => "int64",
        Kind::Float32 => "float32",
        Kind::Float64 => "float64",
        Kind::Uint64 => "uint64",
    }
}

fn lent(kinds: &[Kind]) -> Vec<u8> {
    kinds.iter().map(|kind| *kind as u8).collect()
}

/// The trees of one set of boxes, one for each fanout, and windows over them.
struct Asked {
    kinds: Vec<u8>,
    tiles: usize,
    trees: Vec<Vec<u8>>,
    windows: Vec<Vec<u8>>,
}

impl Asked {
    fn new(kinds: &[Kind], leaves: &[Cells], windows: &[Cells], fanouts: &[usize]) -> Asked {
        Asked {
            kinds: lent(kinds),
            tiles: leaves.len(),
            trees: fanouts.iter().map(|f| data::tree(kinds, leaves, *f)).collect(),
            windows: windows.iter().map(|w| data::bytes(kinds, w)).collect(),
        }
    }

    fn ours(&self, tree: usize, window: usize, out: &mut [u32]) -> [u64; 4] {
        let k = &self.kinds;
        peers::query(k, FIELDS, CAPACITY, self.tiles as u64, &self.trees[tree], k, &self.windows[window], out)
    }

    fn plain(&self, tree: usize, window: usize, out: &mut [u32]) -> Result<(u64, u64), plain::Refused> {
        let k = &self.kinds;
        plain::query(k, FIELDS, CAPACITY, self.tiles as u64, &self.trees[tree], k, &self.windows[window], out)
    }

    fn all(&self) -> Range<usize> {
        0..self.windows.len()
    }

    /// A contender that asks with some of the windows, one after the other.
    fn run<'a, A>(&self, windows: &Range<usize>, mut ask: impl FnMut(usize, &mut [u32]) -> A + 'a) -> Run<'a> {
        let windows = windows.clone();
        let mut out = vec![0; self.tiles];
        Box::new(move || windows.clone().for_each(|w| _ = black_box(ask(black_box(w), &mut out))))
    }

    fn runs(&self, tree: usize, windows: &Range<usize>) -> [Run<'_>; 2] {
        [self.run(windows, move |w, out| self.ours(tree, w, out)), self.run(windows, move |w, out| self.plain(tree, w, out))]
    }

    /// The windows in batches, and one after the other with what the earlier ones of the same batch left of the buffer: how many tiles were found.
    fn batched(&self, batches: &[Vec<u8>], records: &mut [[u64; 5]; BATCH], out: &mut [u32]) -> u64 {
        let (k, n, mut found) = (&self.kinds, self.tiles as u64, 0);
        for windows in batches {
            assert_eq!(peers::query_batch(k, FIELDS, CAPACITY, n, &self.trees[0], black_box(windows), records, out), [0, 0, BATCH as u64]);
            found += records.iter().map(|record| record[2]).sum::<u64>();
        }
        found
    }

    fn single(&self, out: &mut [u32]) -> u64 {
        let mut all = 0;
        for first in (0..self.windows.len()).step_by(BATCH) {
            let mut rest = &mut out[..];
            for window in first..first + BATCH {
                let found = self.ours(0, black_box(window), rest)[2];
                all += found;
                rest = &mut rest[found as usize..];
            }
        }
        all
    }

    fn batch_runs(&self) -> [Run<'_>; 2] {
        let batches: Vec<Vec<u8>> = self.windows.chunks(BATCH).map(<[Vec<u8>]>::concat).collect();
        let (mut records, mut out, mut again) = ([[0; 5]; BATCH], vec![0; BATCH * self.tiles], vec![0; BATCH * self.tiles]);
        assert_eq!(self.batched(&batches, &mut records, &mut out), self.single(&mut again));
        assert_eq!(out, again);
        // Both write to one buffer.
        let first = Rc::new(RefCell::new(out));
        let second = first.clone();
        [
            Box::new(move || _ = black_box(self.batched(&batches, &mut records, &mut first.borrow_mut()))),
            Box::new(move || _ = black_box(self.single(&mut second.borrow_mut()))),
        ]
    }

    fn peer_run<'a>(&self, peer: &'a Peer, windows: &Range<usize>) -> Run<'a> {
        self.run(windows, |w, out| peer.query(w, out))
    }

    /// All answers are the same; the mean numbers found and looked at of each tree.
    fn agree(&self, windows: &Range<usize>, peers: &[Peer]) -> Vec<(f64, f64)> {
        let (mut first, mut other) = (vec![0; self.tiles], vec![0; self.tiles]);
        let mut means = vec![(0.0, 0.0); self.trees.len()];
        for window in windows.clone() {
            let number = self.plain(0, window, &mut first).unwrap().0 as usize;
            let same = |found: u64, out: &[u32], who: &str| {
                assert!(found as usize == number && out[..number] == first[..number], "{who} finds other tiles");
            };
            for (tree, mean) in means.iter_mut().enumerate() {
                let (found, looked) = self.plain(tree, window, &mut other).unwrap();
                same(found, &other, "plain Rust");
                assert_eq!(self.ours(tree, window, &mut other), [0, 0, found, looked]);
                same(found, &other, "the library");
                mean.0 += found as f64 / windows.len() as f64;
                mean.1 += looked as f64 / windows.len() as f64;
            }
            for peer in peers {
                let found = peer.query(window, &mut other);
                other[..found].sort_unstable();
                same(found as u64, &other, peer.name);
            }
        }
        means
    }
}

/// Of those with a name, the one that took the least in a short trial, which tells at which of its node capacities a library is best.
fn best<'a>(name: &str, peers: &'a [Peer], trial: &[f64]) -> Option<&'a Peer> {
    let tried = peers.iter().zip(trial).filter(|(peer, _)| peer.name == name);
    tried.min_by(|a, b| a.1.total_cmp(b.1)).map(|(peer, _)| peer)
}

/// A footer and a tree to open.
struct Opened {
    kinds: Vec<u8>,
    file_size: u64,
    footer: Vec<u8>,
    tree: Vec<u8>,
}

impl Opened {
    fn new(kinds: &[Kind], leaves: &[Cells], fanout: usize) -> Opened {
        let (file_size, footer) = data::footer(kinds, leaves.len());
        Opened { kinds: lent(kinds), file_size, footer, tree: data::tree(kinds, leaves, fanout) }.agreed()
    }

    /// Both say the same of it.
    fn agreed(self) -> Opened {
        let (tiles, f, levels) = self.plain().unwrap();
        assert_eq!(self.ours(), [0, 0, 0, tiles, f, levels]);
        self
    }

    fn ours(&self) -> [u64; 6] {
        peers::open(&self.kinds, FIELDS, CAPACITY, self.file_size, &self.footer, black_box(&self.tree))
    }

    fn plain(&self) -> Result<(u64, u64, u64), plain::Refused> {
        plain::open(&self.kinds, FIELDS, CAPACITY, self.file_size, &self.footer, black_box(&self.tree))
    }

    fn in_parts(&self, block: usize, work: &mut [u8]) -> [u64; 6] {
        peers::open_parts(&self.kinds, FIELDS, CAPACITY, self.file_size, &self.footer, black_box(&self.tree), block, work)
    }

    fn plain_parts(&self, block: usize, work: &mut [u8]) -> Result<(u64, u64, u64), plain::Refused> {
        plain::open_parts(&self.kinds, FIELDS, CAPACITY, self.file_size, &self.footer, black_box(&self.tree), block, work)
    }

    fn bytes(&self) -> usize {
        self.footer.len() + self.tree.len()
    }

    fn runs(&self) -> [Run<'_>; 2] {
        [Box::new(|| _ = black_box(self.ours())), Box::new(|| _ = black_box(self.plain()))]
    }
}

/// Leaves to write a tree of.
struct Writing {
    kinds: Vec<u8>,
    tiles: u64,
    fanout: u64,
    leaves: Vec<u8>,
    bytes: usize,
}

impl Writing {
    /// Both write the tree that is there to be measured on.
    fn new(kinds: &[Kind], leaves: &[Cells], fanout: usize) -> Writing {
        let tree = data::tree(kinds, leaves, fanout);
        let lent_leaves: Vec<u8> = leaves.iter().flat_map(|leaf| data::bytes(kinds, leaf)).collect();
        let made = Writing { kinds: lent(kinds), tiles: leaves.len() as u64, fanout: fanout as u64, leaves: lent_leaves, bytes: tree.len() };
        let (mut first, mut second) = (vec![1; tree.len()], vec![2; tree.len()]);
        assert_eq!(made.ours(&mut first), [0, 0, tree.len() as u64]);
        assert_eq!(made.plain(&mut second), Ok(tree.len() as u64));
        assert!(first == tree && second == tree, "another tree is written");
        made
    }

    fn ours(&self, out: &mut [u8]) -> [u64; 3] {
        peers::write_tree(&self.kinds, FIELDS, CAPACITY, self.tiles, self.fanout, black_box(&self.leaves), out)
    }

    fn plain(&self, out: &mut [u8]) -> Result<u64, plain::Refused> {
        plain::write_tree(&self.kinds, FIELDS, CAPACITY, self.tiles, self.fanout, black_box(&self.leaves), out)
    }

    fn runs(&self) -> [Run<'_>; 2] {
        let (mut first, mut second) = (vec![0; self.bytes], vec![0; self.bytes]);
        [Box::new(move || _ = black_box(self.ours(&mut first))), Box::new(move || _ = black_box(self.plain(&mut second)))]
    }
}

/// The three lists of so many tiles. Of the var offsets every third tile has no bytes.
struct Listed {
    tiles: u64,
    size: u64,
    offsets: Vec<u8>,
    var_offsets: Vec<u8>,
    sizes: Vec<u8>,
}

impl Listed {
    /// Both say the same of them.
    fn new(n: u64) -> Listed {
        let offsets = data::list((0..n).map(|i| 1_000 * i));
        let var_offsets = data::list((0..n).map(|i| 1_000 * (i - i.div_ceil(3))));
        let sizes = data::list((0..n).map(|i| 900 + i % 100));
        let listed = Listed { tiles: n, size: 1_000 * n, offsets, var_offsets, sizes };
        let (offsets, vars) = (&listed.offsets, &listed.var_offsets);
        assert_eq!(peers::offsets(n, listed.size, offsets), [0, 0, plain::offsets(n, listed.size, offsets).unwrap()]);
        assert_eq!(peers::var_offsets(n, listed.size, vars), [0, 0, plain::var_offsets(n, listed.size, vars).unwrap()]);
        assert_eq!(peers::sizes(n, &listed.sizes), [0, 0, plain::sizes(n, &listed.sizes).unwrap()]);
        listed
    }

    fn runs(&self) -> [Run<'_>; 6] {
        [
            Box::new(|| _ = black_box(peers::offsets(self.tiles, self.size, black_box(&self.offsets)))),
            Box::new(|| _ = black_box(plain::offsets(self.tiles, self.size, black_box(&self.offsets)))),
            Box::new(|| _ = black_box(peers::var_offsets(self.tiles, self.size, black_box(&self.var_offsets)))),
            Box::new(|| _ = black_box(plain::var_offsets(self.tiles, self.size, black_box(&self.var_offsets)))),
            Box::new(|| _ = black_box(peers::sizes(self.tiles, black_box(&self.sizes)))),
            Box::new(|| _ = black_box(plain::sizes(self.tiles, black_box(&self.sizes)))),
        ]
    }
}

struct Bench {
    rounds: usize,
    rows: Vec<String>,
    ratios: Vec<(String, f64)>,
}

impl Bench {
    fn ratio(&mut self, case: String, ours: f64, theirs: f64) {
        self.ratios.push((case, ours / theirs));
    }

    fn query_cases(&mut self, kinds: &[Kind], leaves: &[Cells]) {
        let (kind, d, n) = (described(kinds), kinds.len(), leaves.len());
        let windows = [data::windows(d, 4.0 / n as f64, SMALL), data::windows(d, 0.1, LARGE)].concat();
        let asked = Asked::new(kinds, leaves, &windows, &FANOUTS);
        let peers = Peer::all(kinds, &data::numbers(kinds, leaves), &data::numbers(kinds, &windows));
        for (size, windows) in [("small", 0..SMALL), ("large", SMALL..SMALL + LARGE)] {
            let means = asked.agree(&windows, &peers);
            let trial = measure(peers.iter().map(|peer| asked.peer_run(peer, &windows)).collect(), TRIALS);
            let (boost, spatialindex) = ["boost", "libspatialindex"].map(|name| best(name, &peers, &trial).unwrap()).into();
            let theirs = [boost, spatialindex].map(|peer| asked.peer_run(peer, &windows));
            let all = (0..FANOUTS.len()).flat_map(|tree| asked.runs(tree, &windows)).chain(theirs).collect();
            let taken: Vec<f64> = measure(all, self.rounds).iter().map(|t| t / windows.len() as f64).collect();
            let (on_trees, theirs) = taken.split_at(2 * FANOUTS.len());
            for ((f, (found, looked)), pair) in FANOUTS.iter().zip(means).zip(on_trees.chunks(2)) {
                let row = format!("{kind}\t{d}\t{f}\t{n}\t{size}\t{found:.1}\t{looked:.1}\t{}", beside(pair, looked));
                let (b, s) = (boost.capacity, spatialindex.capacity);
                self.rows.push(format!("query\t{row}\t{:.1}\t{b}\t{:.1}\t{s}", theirs[0], theirs[1]));
                for (peer, taken) in ["rust", "boost", "libspatialindex"].iter().zip([pair[1], theirs[0], theirs[1]]) {
                    self.ratio(format!("{peer}/query/{kind}/D={d}/f={f}/n={n}/{size}"), pair[0], taken);
                }
            }
        }
    }

    /// Windows that miss the root: one box is looked at, and the rest of the time is a query's fixed part.
    fn one_box_cases(&mut self) {
        for (kind, d) in [Kind::Int32, Kind::Float64].into_iter().flat_map(|kind| (1..=4).map(move |d| (kind, d))) {
            let (kinds, n) = (vec![kind; d], ONE_BOX_TILES);
            let (leaves, windows) = (data::leaves(d, n), data::windows_outside(d, SMALL));
            let asked = Asked::new(&kinds, &leaves, &windows, &ONE_BOX_FANOUTS);
            let boosts = Peer::some(&kinds, &data::numbers(&kinds, &leaves), &data::numbers(&kinds, &windows), &peers::BOOST, &[]);
            let all = asked.all();
            assert!(asked.agree(&all, &boosts).iter().all(|(found, looked)| *found == 0.0 && (looked - 1.0).abs() < 1e-9));
            let trial = measure(boosts.iter().map(|peer| asked.peer_run(peer, &all)).collect(), TRIALS);
            let boost = best("boost", &boosts, &trial).unwrap();
            let runs = (0..ONE_BOX_FANOUTS.len()).flat_map(|tree| asked.runs(tree, &all)).chain([asked.peer_run(boost, &all)]).collect();
            let taken: Vec<f64> = measure(runs, self.rounds).iter().map(|t| t / windows.len() as f64).collect();
            let (pairs, theirs) = taken.split_at(2 * ONE_BOX_FANOUTS.len());
            let (kind, capacity) = (described(&kinds), boost.capacity);
            for (f, pair) in ONE_BOX_FANOUTS.iter().zip(pairs.chunks(2)) {
                self.rows.push(format!("one box\t{kind}\t{d}\t{f}\t{n}\t{:.1}\t{:.1}\t{:.1}\t{capacity}", pair[0], pair[1], theirs[0]));
                self.ratio(format!("rust/one box/{kind}/D={d}/f={f}/n={n}"), pair[0], pair[1]);
                self.ratio(format!("boost/one box/{kind}/D={d}/f={f}/n={n}"), pair[0], theirs[0]);
            }
        }
    }

    fn opening_cases(&mut self, kinds: &[Kind], leaves: &[Cells]) {
        let (kind, d, n) = (described(kinds), kinds.len(), leaves.len());
        let opened = FANOUTS.map(|f| Opened::new(kinds, leaves, f));
        let taken = measure(opened.iter().flat_map(Opened::runs).collect(), self.rounds);
        for ((f, opened), taken) in FANOUTS.iter().zip(&opened).zip(taken.chunks(2)) {
            let bytes = opened.bytes();
            self.rows.push(format!("open\t{kind}\t{d}\t{f}\t{n}\t{bytes}\t{}", beside(taken, bytes as f64)));
            self.ratio(format!("rust/open/{kind}/D={d}/f={f}/n={n}"), taken[0], taken[1]);
        }
    }

    fn writing_cases(&mut self, kinds: &[Kind], leaves: &[Cells]) {
        let (kind, d, n) = (described(kinds), kinds.len(), leaves.len());
        let written = FANOUTS.map(|f| Writing::new(kinds, leaves, f));
        let taken = measure(written.iter().flat_map(Writing::runs).collect(), self.rounds);
        for ((f, written), taken) in FANOUTS.iter().zip(&written).zip(taken.chunks(2)) {
            let bytes = written.bytes;
            self.rows.push(format!("write\t{kind}\t{d}\t{f}\t{n}\t{bytes}\t{}", beside(taken, bytes as f64)));
            self.ratio(format!("rust/write/{kind}/D={d}/f={f}/n={n}"), taken[0], taken[1]);
        }
    }

    /// A tree in blocks, beside opening the whole and beside plain Rust that takes the same blocks.
    fn parts_cases(&mut self, kinds: &[Kind], leaves: &[Cells]) {
        let (kind, d, n) = (described(kinds), kinds.len(), leaves.len());
        for f in FANOUTS {
            let opened = Opened::new(kinds, leaves, f);
            for block in BLOCKS {
                let [mut ours, mut rust] = [opened.tree.clone(), opened.tree.clone()];
                assert_eq!(opened.in_parts(block, &mut ours), opened.ours());
                assert_eq!(opened.plain_parts(block, &mut rust).unwrap(), opened.plain().unwrap());
                let runs: [Run; 3] = [
                    Box::new(|| _ = black_box(opened.in_parts(block, &mut ours))),
                    Box::new(|| _ = black_box(opened.ours())),
                    Box::new(|| _ = black_box(opened.plain_parts(block, &mut rust))),
                ];
                let taken = measure(runs.into(), CLOSE_ROUNDS * self.rounds);
                let [parts, whole, plain] = [taken[0], taken[1], taken[2]];
                let bytes = opened.bytes();
                self.rows.push(format!("parts\t{kind}\t{d}\t{f}\t{n}\t{bytes}\t{block}\t{parts:.1}\t{whole:.1}\t{plain:.1}"));
                self.ratio(format!("whole/parts/{kind}/D={d}/f={f}/n={n}/block={block}"), parts, whole);
                self.ratio(format!("rust/parts/{kind}/D={d}/f={f}/n={n}/block={block}"), parts, plain);
            }
        }
    }

    fn list_cases(&mut self) {
        let listed = [1_000, 4_000, 16_000, 65_536].map(Listed::new);
        let taken = measure(listed.iter().flat_map(Listed::runs).collect(), self.rounds);
        for (listed, taken) in listed.iter().zip(taken.chunks(6)) {
            for (name, taken) in ["offsets", "var offsets", "sizes"].iter().zip(taken.chunks(2)) {
                let n = listed.tiles;
                self.rows.push(format!("list\t{name}\t{n}\t{}", beside(taken, n as f64)));
                if TILES.contains(&(n as usize)) {
                    self.ratio(format!("rust/{name}/n={n}"), taken[0], taken[1]);
                }
            }
        }
    }

    /// Listings of folders and commits.
    fn committed_cases(&mut self) {
        let listings = committed::Listing::all();
        let taken = measure(listings.iter().flat_map(committed::Listing::runs).collect(), self.rounds);
        for (listing, taken) in listings.iter().zip(taken.chunks(2)) {
            let (names, lines, bytes, found) = (listing.names, listing.lines, listing.text.len(), listing.found);
            self.rows.push(format!("committed\t{names}\t{lines}\t{bytes}\t{found}\t{}", beside(taken, lines as f64)));
            self.ratio(format!("rust/committed/{names}/lines={lines}"), taken[0], taken[1]);
        }
    }

    /// Windows in batches beside single calls.
    fn batch_cases(&mut self) {
        for kinds in [vec![Kind::Int32], vec![Kind::Float64; 2], MIX.to_vec()] {
            let (kind, d) = (described(&kinds), kinds.len());
            for n in TILES {
                let leaves = data::leaves(d, n);
                for (size, windows) in [("small", data::windows(d, 4.0 / n as f64, SMALL)), ("large", data::windows(d, 0.1, LARGE))] {
                    let asked = Asked::new(&kinds, &leaves, &windows, &[BATCH_FANOUT]);
                    let (found, looked) = asked.agree(&asked.all(), &[])[0];
                    let taken: Vec<f64> = measure(asked.batch_runs().into(), CLOSE_ROUNDS * self.rounds).iter().map(|t| t / windows.len() as f64).collect();
                    let row = format!("{kind}\t{d}\t{n}\t{size}\t{found:.1}\t{looked:.1}");
                    self.rows.push(format!("batch\t{row}\t{:.1}\t{:.1}", taken[0], taken[1]));
                    self.ratio(format!("single/batch/{kind}/D={d}/n={n}/{size}"), taken[0], taken[1]);
                }
            }
        }
    }

    /// Ever larger windows over one tree, and ever larger trees.
    fn growth(&mut self) {
        let kinds = [Kind::Int32, Kind::Float64];
        let leaves = data::leaves(2, 65_536);
        let windows = (0..=8).map(|i| data::windows(2, 4f64.powi(i - 8), SMALL >> i));
        let asked: Vec<Asked> = windows.map(|windows| Asked::new(&kinds, &leaves, &windows, &[16])).collect();
        let looked: Vec<f64> = asked.iter().map(|asked| asked.agree(&asked.all(), &[])[0].1).collect();
        let taken = measure(asked.iter().flat_map(|asked| asked.runs(0, &asked.all())).collect(), self.rounds);
        for ((asked, looked), taken) in asked.iter().zip(&looked).zip(taken.chunks(2)) {
            let each: Vec<f64> = taken.iter().map(|t| t / asked.windows.len() as f64).collect();
            self.rows.push(format!("looks\t{looked:.1}\t{}", beside(&each, *looked)));
        }
        let opened: Vec<Opened> = (0..=6).map(|i| Opened::new(&kinds, &leaves[..1024 << i], 16)).collect();
        let taken = measure(opened.iter().flat_map(Opened::runs).collect(), self.rounds);
        for (opened, taken) in opened.iter().zip(taken.chunks(2)) {
            let bytes = opened.bytes();
            self.rows.push(format!("bytes\t{bytes}\t{}", beside(taken, bytes as f64)));
        }
    }
}

impl Bench {
    /// More tiles, and windows that find about as many of them as in a small tree; then opening a large one.
    fn more_tiles(&mut self, n: usize) {
        let kinds = [Kind::Int32, Kind::Float64];
        let leaves = data::even_leaves(n);
        let windows = data::windows(2, 4.0 / n as f64, SMALL);
        let (boosts, spatialindexes): (&[usize], &[usize]) =
            if n > MOST_FOR_PEERS { (&BOOST_PAST, &[]) } else { (&peers::BOOST, &peers::SPATIALINDEX) };
        let peers = Peer::some(&kinds, &data::numbers(&kinds, &leaves), &data::numbers(&kinds, &windows), boosts, spatialindexes);
        let mut asked = Asked::new(&kinds, &leaves, &windows, &GROWING_FANOUTS);
        let all = asked.all();
        let means = asked.agree(&all, &peers);
        let trial = measure(peers.iter().map(|peer| asked.peer_run(peer, &all)).collect(), TRIALS);
        let chosen = ["boost", "libspatialindex"].map(|name| best(name, &peers, &trial));
        let theirs = chosen.iter().flatten().map(|peer| asked.peer_run(peer, &all));
        let runs = (0..GROWING_FANOUTS.len()).flat_map(|tree| asked.runs(tree, &all)).chain(theirs).collect();
        let taken: Vec<f64> = measure(runs, self.rounds).iter().map(|t| t / windows.len() as f64).collect();
        let (on_trees, theirs) = taken.split_at(2 * GROWING_FANOUTS.len());
        let mut theirs = theirs.iter();
        let beside_them: Vec<String> = chosen
            .iter()
            .map(|peer| peer.map_or("-\t-".to_string(), |peer| format!("{:.1}\t{}", theirs.next().unwrap(), peer.capacity)))
            .collect();
        for ((f, (found, looked)), pair) in GROWING_FANOUTS.iter().zip(means).zip(on_trees.chunks(2)) {
            self.rows.push(format!("tiles\t{f}\t{n}\t{found:.1}\t{looked:.1}\t{}\t{}", beside(pair, looked), beside_them.join("\t")));
            self.ratio(format!("rust/more tiles/f={f}/n={n}"), pair[0], pair[1]);
        }
        drop(peers);
        if TILES.contains(&n) {
            return;
        }
        let (file_size, footer) = data::footer(&kinds, n);
        let tree = asked.trees.swap_remove(1);
        drop(asked);
        let opened = Opened { kinds: lent(&kinds), file_size, footer, tree }.agreed();
        let taken = measure(opened.runs().into(), self.rounds);
        self.rows.push(format!("bytes\t{}\t{}", opened.bytes(), beside(&taken, opened.bytes() as f64)));
    }
}

fn main() {
    let arguments: Vec<String> = std::env::args().skip(1).collect();
    let only = arguments.first().map_or("", String::as_str);
    let rounds = arguments.get(1).map_or(21, |rounds| rounds.parse().expect("a number of rounds"));
    let tried = |capacities: &[usize]| capacities.iter().map(usize::to_string).collect::<Vec<_>>().join(" ");
    let (boost, spatialindex) = (tried(&peers::BOOST), tried(&peers::SPATIALINDEX));
    let run = format!("run\t{rounds}\t{}\t{TRIALS}\t{SMALL}\t{LARGE}\t{boost}\t{spatialindex}", LEAST.as_micros());
    let mut bench = Bench { rounds, rows: vec![run], ratios: vec![] };
    for dimensions in 1..=4 {
        for tiles in TILES {
            let leaves = data::leaves(dimensions, tiles);
            let single = Kind::OF_DIMENSIONS.map(|kind| vec![kind; dimensions]);
            let mix = (dimensions > 1).then(|| MIX[..dimensions].to_vec());
            for kinds in single.into_iter().chain(mix).filter(|kinds| described(kinds).starts_with(only)) {
                eprintln!("bench: {} D={dimensions} n={tiles}", described(&kinds));
                bench.query_cases(&kinds, &leaves);
                bench.opening_cases(&kinds, &leaves);
                bench.writing_cases(&kinds, &leaves);
                if dimensions == 2 && tiles == TILES[1] {
                    bench.parts_cases(&kinds, &leaves);
                }
            }
        }
    }
    bench.one_box_cases();
    bench.convert_cases();
    bench.list_cases();
    bench.committed_cases();
    bench.values_cases();
    bench.batch_cases();
    bench.replay_cases();
    bench.dense_cases();
    bench.plan_cases();
    bench.growth();
    let most = arguments.get(2).map_or(usize::MAX, |tiles| tiles.parse().expect("a number of tiles"));
    for tiles in GROWING_TILES.into_iter().filter(|tiles| *tiles <= most) {
        eprintln!("bench: n={tiles}");
        bench.more_tiles(tiles);
    }
    for (table, header) in TABLES {
        println!("{table}\t{header}");
        bench.rows.iter().filter(|row| row.split('\t').next() == Some(table)).for_each(|row| println!("{row}"));
    }
    for (case, value) in &bench.ratios {
        println!("ratio\t{case}\t{value:.3}");
    }
}
