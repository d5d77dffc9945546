//! Bodies cut into blocks, with stated lengths and work buffers around the right ones, and what the rules say of each.

use crate::cases::{self, Case, Chance};
use crate::rules::{self, Description};

/// What came, in what blocks, and what is right of it.
pub struct Parts {
    pub d: Description,
    pub file_size: u64,
    pub footer: Vec<u8>,
    pub stated: u64,
    pub work: Vec<u8>,
    pub got: Vec<u8>,
    pub cuts: Vec<usize>,
}

/// The places where a run of bytes is cut, the last one its end.
fn cuts(c: &mut Chance, length: usize) -> Vec<usize> {
    let (mut all, mut at) = (vec![], 0);
    let most = c.of(&[1, 2, 9, 40, 200, 100_000]);
    while at < length {
        let next = c.of(&[0, 1, 7, 8, 9, 16, most]);
        at = length.min(at + if c.one_in(2) { next } else { c.below(most as u64 + 1) as usize });
        all.push(at);
    }
    all.push(length);
    all
}

/// The bytes that inner boxes take, as far as the first four bytes say it.
fn needed(d: &Description, n: u64, body: &[u8]) -> usize {
    let f = if body.len() < 4 { 2 } else { rules::number(body, 0, 4).clamp(2, 1_024) };
    let (mut count, mut boxes) = (n, 0);
    while count > 1 {
        count = count.div_ceil(f);
        boxes += count;
    }
    boxes as usize * d.box_bytes()
}

pub fn make(c: &mut Chance) -> Option<Parts> {
    let Case::Open { d, file_size, footer, tree } = cases::make(c) else { return None };
    let n = rules::footer(&d, file_size, &footer).map_or(3, |f| f.tiles).min(2_000);
    let length = tree.len() as i64;
    let stated = if c.one_in(4) { (length + c.of(&[-9, -8, -1, 1, 8, 1_000, -length, 3 - length, 8 - length])).max(0) } else { length } as u64;
    let mut got = tree;
    match c.below(6) {
        0 => got.truncate(c.below(length as u64 + 1) as usize),
        1 => got.truncate(c.below(40) as usize),
        2 => got.extend((0..1 + c.below(30)).map(|i| i as u8)),
        _ => (),
    }
    let room = needed(&d, n, &got) as i64 + if c.one_in(3) { c.of(&[-1, 1, 7, -8, 64, -100_000]) } else { 0 };
    let filler = c.next() as u8;
    let cuts = cuts(c, got.len());
    Some(Parts { d, file_size, footer, stated, work: vec![filler; room.clamp(0, 200_000) as usize], got, cuts })
}

pub fn right(p: &Parts) -> Vec<u64> {
    match rules::parts(&p.d, p.file_size, &p.footer, p.stated, p.work.len(), &p.got) {
        Ok((n, f, l)) => vec![0, 0, 0, n, f, l],
        Err(r) => vec![r.number, r.place, r.which, 0, 0, 0],
    }
}
