//! Fragments to measure on: tiles of hits that lie along a Morton curve, as a tree body, footer and lists, and windows over them.

use crate::plain::Kind;

const BITS: u32 = 20;
const HITS: usize = 8;
pub const FIELDS: u64 = 3;
pub const CAPACITY: u64 = HITS as u64;

/// Xorshift numbers, from a seed that is not 0.
struct Chance(u64);

impl Chance {
    fn below(&mut self, bound: u64) -> u64 {
        self.0 ^= self.0 << 13;
        self.0 ^= self.0 >> 7;
        self.0 ^= self.0 << 17;
        (self.0.wrapping_mul(0x2545_f491_4f6c_dd1d) >> 16) % bound
    }
}

/// A low and a high place on the grid per dimension.
pub type Cells = Vec<(i32, i32)>;

fn centred(x: u64) -> i32 {
    x as i32 - (1 << (BITS - 1))
}

/// The boxes of `tiles` tiles, each around hits that follow each other along the curve.
pub fn leaves(dimensions: usize, tiles: usize) -> Vec<Cells> {
    let mut chance = Chance(dimensions as u64 * 1_000_003 + tiles as u64);
    let mut hits: Vec<(u128, [u64; 4])> = (0..tiles * HITS)
        .map(|_| {
            let mut hit = [0; 4];
            let mut code = 0u128;
            hit[..dimensions].fill_with(|| chance.below(1 << BITS));
            for bit in (0..BITS).rev() {
                for x in &hit[..dimensions] {
                    code = code << 1 | (x >> bit & 1) as u128;
                }
            }
            (code, hit)
        })
        .collect();
    hits.sort_unstable();
    let around = |tile: &[(u128, [u64; 4])], i: usize| {
        let places = || tile.iter().map(|(_, hit)| centred(hit[i]));
        (places().min().unwrap(), places().max().unwrap())
    };
    hits.chunks(HITS).map(|tile| (0..dimensions).map(|i| around(tile, i)).collect()).collect()
}

/// As many tiles as are wanted, in two dimensions, without sorting: the curve is cut into `tiles` runs of one length, and each tile is around
/// hits in its own run.
pub fn even_leaves(tiles: usize) -> Vec<Cells> {
    let mut chance = Chance(tiles as u64);
    let place = |code: u64, first: u32| -> u64 { (0..BITS).map(|bit| (code >> (2 * bit + first) & 1) << bit).sum() };
    let whole = 1u128 << (2 * BITS);
    let start = |tile: usize| (tile as u128 * whole / tiles as u128) as u64;
    let tile = |i: usize| -> Cells {
        let hits: Vec<u64> = (0..HITS).map(|_| start(i) + chance.below(start(i + 1) - start(i))).collect();
        let around = |first: u32| {
            let places = || hits.iter().map(|code| centred(place(*code, first)));
            (places().min().unwrap(), places().max().unwrap())
        };
        vec![around(1), around(0)]
    };
    (0..tiles).map(tile).collect()
}

/// Windows that each cover about `part` of the detector.
pub fn windows(dimensions: usize, part: f64, number: usize) -> Vec<Cells> {
    let mut chance = Chance(77 + dimensions as u64);
    let whole = 1u64 << BITS;
    let side = (part.powf(1.0 / dimensions as f64) * whole as f64) as u64;
    let mut range = || {
        let low = chance.below(whole - side + 1);
        (centred(low), centred((low + side).min(whole - 1)))
    };
    (0..number).map(|_| (0..dimensions).map(|_| range()).collect()).collect()
}

/// Windows past the grid's end, which miss every box.
pub fn windows_outside(dimensions: usize, number: usize) -> Vec<Cells> {
    let end = 1 << (BITS - 1);
    (0..number as i32).map(|i| vec![(end + i + 1, end + i + 2); dimensions]).collect()
}

/// A place on the grid as a number of a kind: whole for integers, of uint64 counted from the grid's first place, in quarters for floats;
/// exact in each of them.
fn number(kind: Kind, place: i32) -> f64 {
    match kind {
        Kind::Int32 | Kind::Int64 => place as f64,
        Kind::Float32 | Kind::Float64 => place as f64 * 0.25,
        Kind::Uint64 => place as f64 + f64::from(1 << (BITS - 1)),
    }
}

/// Boxes or windows as the R-tree libraries get them: minimum and maximum of each dimension in turn.
pub fn numbers(kinds: &[Kind], all: &[Cells]) -> Vec<f64> {
    let ends = |cells: &Cells| -> Vec<f64> {
        kinds.iter().zip(cells).flat_map(|(kind, (low, high))| [number(*kind, *low), number(*kind, *high)]).collect()
    };
    all.iter().flat_map(ends).collect()
}

/// A box or a window as the library and plain Rust get it.
pub fn bytes(kinds: &[Kind], cells: &Cells) -> Vec<u8> {
    let mut made = vec![];
    for (kind, (low, high)) in kinds.iter().zip(cells) {
        for x in [*low, *high].map(|place| number(*kind, place)) {
            match kind {
                Kind::Int32 => made.extend((x as i32).to_le_bytes()),
                Kind::Int64 => made.extend((x as i64).to_le_bytes()),
                Kind::Float32 => made.extend((x as f32).to_le_bytes()),
                Kind::Float64 => made.extend(x.to_le_bytes()),
                Kind::Uint64 => made.extend((x as u64).to_le_bytes()),
            }
        }
    }
    made
}

/// A tree body over the boxes of tiles, each box above them around its children.
pub fn tree(kinds: &[Kind], leaves: &[Cells], fanout: usize) -> Vec<u8> {
    let around = |row: &[Cells]| -> Cells {
        let ends = |i: usize| (row.iter().map(|b| b[i].0).min().unwrap(), row.iter().map(|b| b[i].1).max().unwrap());
        (0..kinds.len()).map(ends).collect()
    };
    let mut levels = vec![leaves.to_vec()];
    while levels[0].len() > 1 {
        let above = levels[0].chunks(fanout).map(around).collect();
        levels.insert(0, above);
    }
    let mut body = [(fanout as u32).to_le_bytes(), (levels.len() as u32).to_le_bytes()].concat();
    for level in &levels {
        body.extend((level.len() as u64).to_le_bytes());
        level.iter().for_each(|cells| body.extend(bytes(kinds, cells)));
    }
    body
}

/// A footer whose domain is all of the grid, and the size of its file.
pub fn footer(kinds: &[Kind], tiles: usize) -> (u64, Vec<u8>) {
    let half = 1 << (BITS - 1);
    let domain = bytes(kinds, &vec![(-half, half); kinds.len()]);
    let total = 64 + 6 + domain.len() as u64 + 88 * FIELDS;
    let mut made = [&21u32.to_le_bytes()[..], &6u64.to_le_bytes(), b"schema", &[0, 0], &domain].concat();
    made.extend([(tiles as u64).to_le_bytes(), CAPACITY.to_le_bytes()].concat());
    made.extend([0, 0]);
    (0..11 * FIELDS + 3).for_each(|i| made.extend(i.to_le_bytes()));
    made.extend((total - 8).to_le_bytes());
    (total + 10_000, made)
}

/// A list of `entries`, with its count before it.
pub fn list(entries: impl Iterator<Item = u64> + Clone) -> Vec<u8> {
    let count = entries.clone().count() as u64;
    [count].into_iter().chain(entries).flat_map(u64::to_le_bytes).collect()
}
