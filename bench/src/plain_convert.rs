//! The converter of float32 trees in plain Rust: opening's checks, and then the same tree with those ranges as float64.

use super::{Description, Kind, Refused, boxes, footer, refusal, refuse, u32_at, u64_at};

/// One box, side by side.
fn widen(kinds: &[Kind], from: &[u8], to: &mut [u8]) {
    let (mut at, mut out) = (0, 0);
    for kind in kinds {
        if *kind == Kind::Float32 {
            for (end, wide) in from[at..at + 8].chunks_exact(4).zip(to[out..out + 16].chunks_exact_mut(8)) {
                wide.copy_from_slice(&f64::from(f32::from_le_bytes(end.try_into().unwrap())).to_le_bytes());
            }
            (at, out) = (at + 8, out + 16);
        } else {
            let width = kind.range_bytes();
            to[out..out + width].copy_from_slice(&from[at..at + width]);
            (at, out) = (at + width, out + width);
        }
    }
}

/// Writes the converted tree, and answers its length.
#[inline(never)]
pub fn convert(
    kinds: &[u8], fields: u64, capacity: u64, file_size: u64, footer_bytes: &[u8], tree: &[u8], out: &mut [u8],
) -> Result<u64, Refused> {
    let d = Description::old(kinds, fields, capacity)?;
    let (tiles, domain) = footer(&d, file_size, footer_bytes)?;
    boxes(&d, tiles as usize, &footer_bytes[domain..], tree).map_err(|refused| Refused { which: 1, ..refused })?;
    let (width, levels) = (d.box_bytes(), u32_at(tree, 4) as usize);
    let wide = width + 8 * d.kinds().iter().filter(|kind| **kind == Kind::Float32).count();
    let length = 8 + 8 * levels + (tree.len() - 8 - 8 * levels) / width * wide;
    let Some(body) = out.get_mut(..length) else { return refuse(refusal::ROOM, 0) };
    body[..8].copy_from_slice(&tree[..8]);
    let (mut at, mut to) = (8, 8);
    for _ in 0..levels {
        let count = u64_at(tree, at) as usize;
        body[to..to + 8].copy_from_slice(&tree[at..at + 8]);
        (at, to) = (at + 8, to + 8);
        let old = tree[at..at + count * width].chunks_exact(width);
        for (from, into) in old.zip(body[to..to + count * wide].chunks_exact_mut(wide)) {
            widen(d.kinds(), from, into);
        }
        (at, to) = (at + count * width, to + count * wide);
    }
    Ok(length as u64)
}
