//! Mins, maxes, sums and null counts: checking a body, and reading all its values one by one, through the library's C functions and in plain Rust
//! that takes and answers the same.

use crate::data::{self, CAPACITY, FIELDS};
use crate::plain::{self, limits, refusal, refuse, u32_at, u64_at, Kind, Refused};
use crate::{beside, measure, Bench, Run};
use std::hint::black_box;

unsafe extern "C" {
    fn tussockbell_values(kind: u64, tiles: u64, body: *const u8, length: usize, answer: *mut u64);
    fn tussockbell_value_at(kind: u64, tiles: u64, body: *const u8, length: usize, tile: u64) -> u64;
    fn tussockbell_ranges(
        kind: u64, tiles: u64, mins: *const u8, mins_length: usize, maxes: *const u8, maxes_length: usize, answer: *mut u64,
    );
    fn tussockbell_var_values(tiles: u64, body: *const u8, length: usize, answer: *mut u64);
    fn tussockbell_var_value_at(tiles: u64, body: *const u8, length: usize, tile: u64, answer: *mut u64);
    fn tussockbell_sums(tiles: u64, body: *const u8, length: usize, answer: *mut u64);
    fn tussockbell_sum_at(tiles: u64, body: *const u8, length: usize, tile: u64) -> u64;
    fn tussockbell_null_counts(
        kinds: *const u8, kinds_length: usize, fields: u64, capacity: u64, file_size: u64, footer: *const u8, footer_length: usize,
        body: *const u8, length: usize, answer: *mut u64,
    );
}

const TILES: [u64; 2] = [1_000, 65_536];

// ---- plain Rust

fn width(kind: Kind) -> usize {
    match kind {
        Kind::Int32 | Kind::Float32 => 4,
        Kind::Int64 | Kind::Float64 | Kind::Uint64 => 8,
    }
}

fn kind_of(number: u64) -> Result<Kind, Refused> {
    match Kind::ALL.into_iter().find(|kind| *kind as u64 == number) {
        Some(kind) => Ok(kind),
        None => refuse(refusal::DESCRIPTION, 0),
    }
}

/// The values' bytes and the var buffer.
fn layout(width: usize, tiles: u64, body: &[u8]) -> Result<(&[u8], &[u8]), Refused> {
    if !limits::TILES.contains(&tiles) {
        return refuse(refusal::TILES, 0);
    }
    if body.len() < 8 {
        return refuse(refusal::BYTES, body.len());
    }
    if u64_at(body, 0) != tiles {
        return refuse(refusal::COUNT, 0);
    }
    let end = 8 + width * tiles as usize;
    let size = body.get(end..end + 8).map(|bytes| u64_at(bytes, 0) as usize);
    if size.and_then(|size| size.checked_add(end + 8)) != Some(body.len()) {
        return refuse(refusal::BYTES, body.len());
    }
    Ok((&body[8..end], &body[end + 8..]))
}

fn floats32(values: &[u8]) -> impl Iterator<Item = f32> + '_ {
    values.chunks_exact(4).map(|bytes| f32::from_le_bytes(bytes.try_into().unwrap()))
}

fn floats64(values: &[u8]) -> impl Iterator<Item = f64> + '_ {
    values.chunks_exact(8).map(|bytes| f64::from_le_bytes(bytes.try_into().unwrap()))
}

fn checked(kind: Kind, tiles: u64, body: &[u8]) -> Result<&[u8], Refused> {
    let (values, buffer) = layout(width(kind), tiles, body)?;
    if !buffer.is_empty() {
        return refuse(refusal::BYTES, body.len());
    }
    let nan = match kind {
        Kind::Float32 => floats32(values).position(f32::is_nan),
        Kind::Float64 => floats64(values).position(f64::is_nan),
        Kind::Int32 | Kind::Int64 | Kind::Uint64 => None,
    };
    match nan {
        Some(i) => refuse(refusal::NOT_A_NUMBER, 8 + width(kind) * i),
        None => Ok(values),
    }
}

#[inline(never)]
fn values(kind: u64, tiles: u64, body: &[u8]) -> Result<u64, Refused> {
    checked(kind_of(kind)?, tiles, body).map(|_| tiles)
}

fn reversed<T: PartialOrd>(mins: impl Iterator<Item = T>, maxes: impl Iterator<Item = T>) -> Option<usize> {
    mins.zip(maxes).position(|(min, max)| min > max)
}

#[inline(never)]
fn ranges(kind: u64, tiles: u64, mins: &[u8], maxes: &[u8]) -> Result<u64, Refused> {
    let kind = kind_of(kind)?;
    let low = checked(kind, tiles, mins)?;
    let high = checked(kind, tiles, maxes).map_err(|refused| Refused { which: 1, ..refused })?;
    let fours = |bytes: &[u8]| u32_at(bytes, 0) as i32;
    let eights = |bytes: &[u8]| u64_at(bytes, 0);
    let found = match kind {
        Kind::Int32 => reversed(low.chunks_exact(4).map(fours), high.chunks_exact(4).map(fours)),
        Kind::Int64 => reversed(low.chunks_exact(8).map(|b| eights(b) as i64), high.chunks_exact(8).map(|b| eights(b) as i64)),
        Kind::Float32 => reversed(floats32(low), floats32(high)),
        Kind::Float64 => reversed(floats64(low), floats64(high)),
        Kind::Uint64 => reversed(low.chunks_exact(8).map(eights), high.chunks_exact(8).map(eights)),
    };
    match found {
        Some(i) => Err(Refused { number: refusal::REVERSED, place: (8 + width(kind) * i) as u64, which: 1 }),
        None => Ok(tiles),
    }
}

/// A tile's value, of an accepted body.
#[inline(never)]
fn value_at(kind: u64, tiles: u64, body: &[u8], tile: u64) -> u64 {
    match kind_of(kind) {
        Ok(_) if tile >= tiles => 0,
        Ok(Kind::Int32 | Kind::Float32) => u32_at(body, 8 + 4 * tile as usize).into(),
        Ok(_) => u64_at(body, 8 + 8 * tile as usize),
        Err(_) => 0,
    }
}

#[inline(never)]
fn var_values(tiles: u64, body: &[u8]) -> Result<u64, Refused> {
    let (values, buffer) = layout(8, tiles, body)?;
    let (mut starts, mut before) = (values.chunks_exact(8).map(|bytes| u64_at(bytes, 0)).enumerate(), 0);
    if starts.next().is_some_and(|(_, first)| first != 0) {
        return refuse(refusal::TILE_OFFSETS, 8);
    }
    for (i, start) in starts {
        if start < before || start > buffer.len() as u64 {
            return refuse(refusal::TILE_OFFSETS, 8 + 8 * i);
        }
        before = start;
    }
    Ok(tiles)
}

/// Where a tile's value lies in an accepted body.
#[inline(never)]
fn var_value_at(tiles: u64, body: &[u8], tile: u64, answer: &mut [u64; 2]) {
    if tile >= tiles {
        *answer = [0, 0];
        return;
    }
    let end = 8 + 8 * tiles as usize;
    let size = u64_at(body, end);
    let start = u64_at(body, 8 + 8 * tile as usize);
    let next = if tile + 1 < tiles { u64_at(body, 16 + 8 * tile as usize) } else { size };
    *answer = [end as u64 + 8 + start, next - start];
}

fn numbers(tiles: u64, body: &[u8]) -> Result<&[u8], Refused> {
    if !limits::TILES.contains(&tiles) {
        return refuse(refusal::TILES, 0);
    }
    if body.len() < 8 {
        return refuse(refusal::BYTES, body.len());
    }
    if u64_at(body, 0) != tiles {
        return refuse(refusal::COUNT, 0);
    }
    if body.len() as u64 != 8 + 8 * tiles { refuse(refusal::BYTES, body.len()) } else { Ok(&body[8..]) }
}

#[inline(never)]
fn sums(tiles: u64, body: &[u8]) -> Result<u64, Refused> {
    numbers(tiles, body).map(|_| tiles)
}

#[inline(never)]
fn sum_at(tiles: u64, body: &[u8], tile: u64) -> u64 {
    if tile < tiles { u64_at(body, 8 + 8 * tile as usize) } else { 0 }
}

#[inline(never)]
fn null_counts(kinds: &[u8], fields: u64, capacity: u64, file_size: u64, footer: &[u8], body: &[u8]) -> Result<u64, Refused> {
    let (tiles, last) = plain::cells(kinds, fields, capacity, file_size, footer)?;
    let counts = numbers(tiles, body).map_err(|refused| Refused { which: 1, ..refused })?;
    for (i, count) in counts.chunks_exact(8).map(|bytes| u64_at(bytes, 0)).enumerate() {
        let cells = if i as u64 + 1 < tiles { capacity } else { last };
        if count > cells {
            return Err(Refused { number: refusal::NULL_COUNT, place: 8 + 8 * i as u64, which: 1 });
        }
    }
    Ok(tiles)
}

// ---- the library

fn ours_values(kind: u64, tiles: u64, body: &[u8]) -> [u64; 3] {
    let mut answer = [0; 3];
    unsafe { tussockbell_values(kind, tiles, body.as_ptr(), body.len(), answer.as_mut_ptr()) }
    answer
}

fn ours_ranges(kind: u64, tiles: u64, mins: &[u8], maxes: &[u8]) -> [u64; 4] {
    let mut answer = [0; 4];
    unsafe { tussockbell_ranges(kind, tiles, mins.as_ptr(), mins.len(), maxes.as_ptr(), maxes.len(), answer.as_mut_ptr()) }
    answer
}

fn ours_value_at(kind: u64, tiles: u64, body: &[u8], tile: u64) -> u64 {
    unsafe { tussockbell_value_at(kind, tiles, body.as_ptr(), body.len(), tile) }
}

fn ours_var_values(tiles: u64, body: &[u8]) -> [u64; 3] {
    let mut answer = [0; 3];
    unsafe { tussockbell_var_values(tiles, body.as_ptr(), body.len(), answer.as_mut_ptr()) }
    answer
}

fn ours_var_value_at(tiles: u64, body: &[u8], tile: u64, answer: &mut [u64; 2]) {
    unsafe { tussockbell_var_value_at(tiles, body.as_ptr(), body.len(), tile, answer.as_mut_ptr()) }
}

fn ours_sums(tiles: u64, body: &[u8]) -> [u64; 3] {
    let mut answer = [0; 3];
    unsafe { tussockbell_sums(tiles, body.as_ptr(), body.len(), answer.as_mut_ptr()) }
    answer
}

fn ours_sum_at(tiles: u64, body: &[u8], tile: u64) -> u64 {
    unsafe { tussockbell_sum_at(tiles, body.as_ptr(), body.len(), tile) }
}

fn ours_null_counts(kinds: &[u8], file_size: u64, footer: &[u8], body: &[u8]) -> [u64; 4] {
    let mut answer = [0; 4];
    let (k, f) = (kinds, footer);
    unsafe {
        tussockbell_null_counts(
            k.as_ptr(), k.len(), FIELDS, CAPACITY, file_size, f.as_ptr(), f.len(), body.as_ptr(), body.len(), answer.as_mut_ptr(),
        )
    }
    answer
}

// ---- what is measured

/// The bodies of so many tiles.
struct Bodies {
    tiles: u64,
    fixed: Vec<(&'static str, u64, Vec<u8>, Vec<u8>)>,
    var: Vec<u8>,
    sums: Vec<u8>,
    counts: Vec<u8>,
    kinds: Vec<u8>,
    file_size: u64,
    footer: Vec<u8>,
}

fn fixed(name: &'static str, kind: Kind, n: u64) -> (&'static str, u64, Vec<u8>, Vec<u8>) {
    let body = |above: u64| {
        let number = |i: u64| (i.wrapping_mul(2_654_435_761) % 100_000 + above) as i64;
        let values = (0..n).flat_map(|i| match kind {
            Kind::Int32 => (number(i) as i32).to_le_bytes().to_vec(),
            Kind::Int64 | Kind::Uint64 => number(i).to_le_bytes().to_vec(),
            Kind::Float32 => (number(i) as f32 / 4.0).to_le_bytes().to_vec(),
            Kind::Float64 => (number(i) as f64 / 4.0).to_le_bytes().to_vec(),
        });
        let values: Vec<u8> = values.collect();
        [&n.to_le_bytes()[..], &values, &[0; 8]].concat()
    };
    (name, kind as u64, body(0), body(7))
}

impl Bodies {
    /// Both say the same of them, and read the same values.
    fn new(n: u64) -> Bodies {
        let kinds = [Kind::Int32];
        let (file_size, footer) = data::footer(&kinds, n as usize);
        let starts: Vec<u64> = (0..n).map(|i| 6 * (i - i.div_ceil(3))).collect();
        let size = 6 * n;
        let var = [&data::list(starts.iter().copied())[..], &size.to_le_bytes(), &vec![b'x'; size as usize]].concat();
        let made = Bodies {
            tiles: n,
            fixed: vec![
                fixed("int32", Kind::Int32, n), fixed("int64", Kind::Int64, n), fixed("float32", Kind::Float32, n),
                fixed("float64", Kind::Float64, n), fixed("uint64", Kind::Uint64, n),
            ],
            var,
            sums: data::list((0..n).map(|i| i.wrapping_mul(0x9e37_79b9_7f4a_7c15))),
            counts: data::list((0..n).map(|i| i % 2)),
            kinds: vec![Kind::Int32 as u8],
            file_size,
            footer,
        };
        made.agree();
        made
    }

    fn agree(&self) {
        let n = self.tiles;
        for (_, kind, mins, maxes) in &self.fixed {
            assert_eq!(ours_values(*kind, n, mins), [0, 0, values(*kind, n, mins).unwrap()]);
            assert_eq!(ours_ranges(*kind, n, mins, maxes), [0, 0, 0, ranges(*kind, n, mins, maxes).unwrap()]);
            assert!((0..n + 1).all(|i| ours_value_at(*kind, n, mins, i) == value_at(*kind, n, mins, i)));
        }
        assert_eq!(ours_var_values(n, &self.var), [0, 0, var_values(n, &self.var).unwrap()]);
        let (mut first, mut second) = ([1; 2], [2; 2]);
        for i in 0..n + 1 {
            ours_var_value_at(n, &self.var, i, &mut first);
            var_value_at(n, &self.var, i, &mut second);
            assert_eq!(first, second);
        }
        assert_eq!(ours_sums(n, &self.sums), [0, 0, sums(n, &self.sums).unwrap()]);
        assert!((0..n + 1).all(|i| ours_sum_at(n, &self.sums, i) == sum_at(n, &self.sums, i)));
        let said = null_counts(&self.kinds, FIELDS, CAPACITY, self.file_size, &self.footer, &self.counts).unwrap();
        assert_eq!(ours_null_counts(&self.kinds, self.file_size, &self.footer, &self.counts), [0, 0, 0, said]);
    }

    /// What is done to which body, by the library and by plain Rust.
    fn runs(&self) -> Vec<(&'static str, &'static str, [Run<'_>; 2])> {
        let n = self.tiles;
        let mut made: Vec<(&str, &str, [Run; 2])> = vec![];
        for (name, kind, mins, maxes) in &self.fixed {
            let kind = *kind;
            let ours = move || _ = black_box(ours_values(black_box(kind), n, black_box(mins)));
            let plain = move || _ = black_box(values(black_box(kind), n, black_box(mins)));
            made.push(("check", name, [Box::new(ours), Box::new(plain)]));
            made.push(("check and read", name, [
                Box::new(move || {
                    ours();
                    (0..n).for_each(|i| _ = black_box(ours_value_at(black_box(kind), n, mins, i)))
                }),
                Box::new(move || {
                    plain();
                    (0..n).for_each(|i| _ = black_box(value_at(black_box(kind), n, mins, i)))
                }),
            ]));
            made.push(("check together", name, [
                Box::new(move || _ = black_box(ours_ranges(black_box(kind), n, black_box(mins), black_box(maxes)))),
                Box::new(move || _ = black_box(ranges(black_box(kind), n, black_box(mins), black_box(maxes)))),
            ]));
        }
        let ours = move || _ = black_box(ours_var_values(n, black_box(&self.var)));
        let plain = move || _ = black_box(var_values(n, black_box(&self.var)));
        made.push(("check", "var", [Box::new(ours), Box::new(plain)]));
        made.push(("check and read", "var", [
            Box::new(move || {
                ours();
                let mut answer = [0; 2];
                for i in 0..n {
                    ours_var_value_at(n, &self.var, i, &mut answer);
                    black_box(&answer);
                }
            }),
            Box::new(move || {
                plain();
                let mut answer = [0; 2];
                for i in 0..n {
                    var_value_at(n, &self.var, i, &mut answer);
                    black_box(&answer);
                }
            }),
        ]));
        let ours = move || _ = black_box(ours_sums(n, black_box(&self.sums)));
        let plain = move || _ = black_box(sums(n, black_box(&self.sums)));
        made.push(("check", "sums", [Box::new(ours), Box::new(plain)]));
        made.push(("check and read", "sums", [
            Box::new(move || {
                ours();
                (0..n).for_each(|i| _ = black_box(ours_sum_at(n, &self.sums, i)))
            }),
            Box::new(move || {
                plain();
                (0..n).for_each(|i| _ = black_box(sum_at(n, &self.sums, i)))
            }),
        ]));
        let (kinds, file_size, footer) = (&self.kinds, self.file_size, &self.footer);
        let ours = move || _ = black_box(ours_null_counts(kinds, file_size, footer, black_box(&self.counts)));
        let plain = move || _ = black_box(null_counts(kinds, FIELDS, CAPACITY, file_size, footer, black_box(&self.counts)));
        made.push(("check", "null counts", [Box::new(ours), Box::new(plain)]));
        made.push(("check and read", "null counts", [
            Box::new(move || {
                ours();
                (0..n).for_each(|i| _ = black_box(ours_sum_at(n, &self.counts, i)))
            }),
            Box::new(move || {
                plain();
                (0..n).for_each(|i| _ = black_box(sum_at(n, &self.counts, i)))
            }),
        ]));
        made
    }
}

impl Bench {
    pub fn values_cases(&mut self) {
        for n in TILES {
            let bodies = Bodies::new(n);
            let (names, runs): (Vec<_>, Vec<_>) = bodies.runs().into_iter().map(|(what, of, pair)| ((what, of), pair)).unzip();
            let taken = measure(runs.into_iter().flatten().collect(), self.rounds);
            for ((what, of), taken) in names.iter().zip(taken.chunks(2)) {
                self.rows.push(format!("values\t{what}\t{of}\t{n}\t{}", beside(taken, n as f64)));
                if *what != "check" {
                    self.ratio(format!("rust/values/{what}/{of}/n={n}"), taken[0], taken[1]);
                }
            }
        }
    }
}
