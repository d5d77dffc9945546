//! Whole trees of many tiles, more than the report can read: one int32 dimension, tile i from 4i to 4i + 7 or less, so that neighbours may touch.
//! What is found is told from the tiles themselves, one by one, and what is looked at from the rules' walk and from their flat count.

use crate::cases::{Case, Chance};
use crate::library;
use crate::right::right;
use crate::rules::{self, limits, refusal, Description, INT32};

type Ends = (i32, i32);

struct Grown {
    d: Description,
    n: u64,
    fanout: u64,
    /// The root's first.
    levels: Vec<Vec<Ends>>,
    body: Vec<u8>,
}

fn grown(n: u64, fanout: u64) -> Grown {
    let mut c = Chance::new(n, fanout);
    let leaves = (0..n as i32).map(|i| (4 * i, 4 * i + c.below(8) as i32)).collect();
    let mut levels: Vec<Vec<Ends>> = vec![leaves];
    while levels[0].len() > 1 {
        let around = |row: &[Ends]| (row.iter().map(|b| b.0).min().unwrap(), row.iter().map(|b| b.1).max().unwrap());
        levels.insert(0, levels[0].chunks(fanout as usize).map(around).collect());
    }
    let mut body = [(fanout as u32).to_le_bytes(), (levels.len() as u32).to_le_bytes()].concat();
    body.reserve_exact(levels.iter().map(|level| 8 + 8 * level.len()).sum());
    for level in &levels {
        body.extend((level.len() as u64).to_le_bytes());
        level.iter().for_each(|ends| body.extend(bytes(*ends)));
    }
    Grown { d: Description { kinds: vec![INT32.number], fields: 1, capacity: 100 }, n, fanout, levels, body }
}

fn bytes(ends: Ends) -> [u8; 8] {
    [ends.0.to_le_bytes(), ends.1.to_le_bytes()].concat().try_into().unwrap()
}

/// A sound footer of so many tiles, of a file of 1,000 bytes more.
fn footer(tiles: u64, domain: Ends) -> Vec<u8> {
    let mut data = [&21u32.to_le_bytes()[..], &1u64.to_le_bytes(), b"s", &[0, 0], &bytes(domain)].concat();
    data.extend([tiles, 100].iter().flat_map(|x| x.to_le_bytes()));
    data.extend([0, 0]);
    (0..14u64).for_each(|i| data.extend(i.to_le_bytes()));
    let length = data.len() as u64;
    data.extend(length.to_le_bytes());
    data
}

fn same<T: PartialEq + std::fmt::Debug>(said: T, right: T, what: &str) {
    assert!(said == right, "{what}: the library says {said:?}, right is {right:?}");
}

/// Nanoseconds that this program has run on a processor.
fn run_time() -> f64 {
    let said = std::fs::read_to_string("/proc/self/schedstat").expect("what the kernel says of this program");
    said.split(' ').next().unwrap().parse().expect("a number")
}

impl Grown {
    /// Nanoseconds of one turn, of as many as make a tree of few tiles count like a tree of many.
    fn time(&mut self, mut turn: impl FnMut(&mut Grown)) -> f64 {
        let turns = (limits::TILES.end() / self.n).max(1);
        let start = run_time();
        (0..turns).for_each(|_| turn(self));
        (run_time() - start) / turns as f64
    }

    fn root(&self) -> Ends {
        self.levels[0][0]
    }

    /// The body goes into the case and is taken back from it, so that there is one of it.
    fn open(&mut self, tiles: u64) -> Vec<u64> {
        let footer = footer(tiles, self.root());
        let case = Case::Open { d: self.d.clone(), file_size: footer.len() as u64 + 1_000, footer, tree: std::mem::take(&mut self.body) };
        let said = library::ask(&case, None).0;
        let Case::Open { tree, .. } = case else { unreachable!() };
        self.body = tree;
        said
    }

    fn ask(&mut self, tiles: u64, window: Ends, room: usize) -> (Vec<u64>, Vec<u32>) {
        let (kinds, ends) = (self.d.kinds.clone(), bytes(window).to_vec());
        let case = Case::Query { d: self.d.clone(), tiles, tree: std::mem::take(&mut self.body), kinds, ends, room };
        let said = library::ask(&case, None);
        let Case::Query { tree, .. } = case else { unreachable!() };
        self.body = tree;
        said
    }

    /// What opening says of the tree as it is, and with a fault at each level's count, in the last box and in the length.
    fn opening(&mut self) {
        let (n, fanout, end) = (self.n, self.fanout, self.body.len());
        let said = self.open(n);
        let taken = self.time(|tree| _ = tree.open(n));
        println!("many: n = {n}, f = {fanout}: {end} bytes, {} levels, opened in {:.2} ns a byte", said[5], taken / end as f64);
        let footer = footer(n, self.root());
        let (tiles, f, levels) = rules::open(&self.d, footer.len() as u64 + 1_000, &footer, &self.body).unwrap_or_else(|_| panic!("the rules refuse"));
        same(said, vec![0, 0, 0, tiles, f, levels], "opening");
        same((tiles, levels as usize), (n, self.levels.len()), "the rules");
        let mut at = 8;
        for level in 0..self.levels.len() {
            self.body[at] ^= 1;
            same(self.open(n), vec![refusal::LEVELS, at as u64, 1, 0, 0, 0], "a level's count");
            self.body[at] ^= 1;
            at += 8 + 8 * self.levels[level].len();
        }
        let last = *self.levels.last().unwrap().last().unwrap();
        for (ends, number) in [((last.0, i32::MAX), refusal::OUTSIDE_PARENT), ((last.1, last.0 - 1), refusal::REVERSED)] {
            self.body[end - 8..].copy_from_slice(&bytes(ends));
            same(self.open(n), vec![number, end as u64 - 8, 1, 0, 0, 0], "the last box");
        }
        self.body[end - 8..].copy_from_slice(&bytes(last));
        self.body.pop();
        same(self.open(n), vec![refusal::BYTES, end as u64 - 1, 1, 0, 0, 0], "a byte less");
        self.body.push(bytes(last)[7]);
        // The number of tiles stands behind version, name size, name, flags and domain.
        same(self.open(limits::TILES.end() + 1), vec![refusal::TILES, 4 + 8 + 1 + 2 + 8, 0, 0, 0, 0], "a tile too many");
    }

    /// The tree that is written of its leaves is this one.
    fn writing(&mut self) {
        let (d, tiles, fanout, room) = (self.d.clone(), self.n, self.fanout, self.body.len() + 3);
        let leaves = self.body[self.body.len() - 8 * self.n as usize..].to_vec();
        let case = Case::Write { d, tiles, fanout, leaves, room };
        let length = self.body.len() as u64;
        let (said, out) = library::ask(&case, None);
        same(said, vec![0, 0, length, 0, 0, length], "writing");
        assert!(out.into_iter().eq(self.body.iter().map(|x| u32::from(*x)).chain([0xa5; 3])), "what is written");
    }

    fn window(&mut self, window: Ends) {
        let meets = |ends: &Ends| ends.0 <= window.1 && window.0 <= ends.1;
        let leaves = self.levels.last().unwrap();
        let tiles: Vec<u32> = (0..leaves.len()).filter(|i| meets(&leaves[*i])).map(|i| i as u32).collect();
        let mut flat = 1;
        for (level, below) in self.levels.iter().zip(&self.levels[1..]) {
            let children = |k: usize| (below.len() - k * self.fanout as usize).min(self.fanout as usize) as u64;
            flat += (0..level.len()).filter(|k| meets(&level[*k])).map(children).sum::<u64>();
        }
        let (found, looked) = rules::query(&self.d, self.n, &self.body, &self.d.kinds, &bytes(window)).unwrap_or_else(|_| panic!("the rules refuse"));
        assert!(found == tiles && looked == flat, "the rules");
        for room in [0, tiles.len().saturating_sub(1), tiles.len() + 1] {
            let (said, out) = self.ask(self.n, window, room);
            same(said, vec![0, 0, tiles.len() as u64, flat], "a query");
            let right = tiles.iter().copied().chain((tiles.len()..).map(|i| 0xdead_0000 + i as u32)).take(room);
            assert!(out.into_iter().eq(right), "a query's buffer");
        }
    }

    fn queries(&mut self) {
        let (low, high) = self.root();
        for window in [(low, high), (low, low), (high, high), (high + 1, i32::MAX), (i32::MIN, -1), (high / 2, high / 2 + 40)] {
            self.window(window);
        }
        let mut c = Chance::new(self.n, 0);
        for i in 0..12 {
            let start = c.below(high as u64) as i32;
            self.window((start, start.saturating_add(1 << (2 * i))));
        }
        let looked = self.ask(self.n, (low, high), 0).0[3];
        let taken = self.time(|tree| _ = tree.ask(tree.n, (low, high), 0));
        println!("many: n = {}, f = {}: {looked} boxes looked at in {:.2} ns a box", self.n, self.fanout, taken / looked as f64);
        same(self.ask(limits::TILES.end() + 1, (low, high), 1), (vec![refusal::TILES, 0, 0, 0], vec![0xdead_0000]), "a tile too many");
        same(self.ask(self.n, (high, low), 1), (vec![refusal::REVERSED, 0, 0, 0], vec![0xdead_0000]), "a reversed window");
    }
}

/// The lists of so many tiles, as they are and with a fault in the last entry.
fn lists(n: u64) {
    let list = |last: u64| -> Vec<u8> { [n].into_iter().chain((0..n - 1).map(|i| 10 * i)).chain([last]).flat_map(u64::to_le_bytes).collect() };
    for last in [10 * n, 10 * n + 1, 1, u64::MAX] {
        let list = list(last);
        for (var, tile) in [(false, n - 1), (true, n - 2)] {
            let case = Case::Offsets { var, tiles: n, size: 10 * n, list: list.clone(), tile };
            same(library::ask(&case, None).0, right(&case).0, "offsets");
        }
        let case = Case::Sizes { tiles: n, list };
        same(library::ask(&case, None).0, right(&case).0, "sizes");
    }
}

pub fn compare(n: u64) {
    for fanout in [*limits::FANOUT.start(), *limits::FANOUT.end()] {
        let mut tree = grown(n, fanout);
        tree.opening();
        tree.writing();
        tree.queries();
    }
    lists(n);
    crate::plan::many(n);
    println!("many: trees, lists and read plans of {n} tiles agree");
}
