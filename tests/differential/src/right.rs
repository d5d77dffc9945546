//! What the rules say of a case, in the places of the C functions' answers.

use crate::cases::Case;
use crate::rules::{self, Refused};

/// The numbers of a record: those of a query, and the places that the window used.
pub const RECORD_PLACES: usize = 5;

/// The numbers of a footer's answer.
pub const FOOTER_PLACES: usize = 730;

fn refused(r: &Refused, rest: usize) -> Vec<u64> {
    let mut answer = vec![r.number, r.place];
    answer.resize(2 + rest, 0);
    answer
}

/// What the rules say of a case: the answer's numbers, and the result buffer's last contents.
pub fn right(case: &Case) -> (Vec<u64>, Vec<u32>) {
    match case {
        Case::Footer { d, file_size, footer, tile } => (footer_numbers(d, *file_size, footer, *tile), vec![]),
        Case::Open { d, file_size, footer, tree } => (
            match rules::open(d, *file_size, footer, tree) {
                Ok((n, f, l)) => vec![0, 0, 0, n, f, l],
                Err(r) => vec![r.number, r.place, r.which, 0, 0, 0],
            },
            vec![],
        ),
        Case::Query { d, tiles, tree, kinds, ends, room } => {
            let mut out: Vec<u32> = (0..*room as u32).map(|i| 0xdead_0000 + i).collect();
            match rules::query(d, *tiles, tree, kinds, ends) {
                Ok((found, looked)) => {
                    let fits = found.len().min(out.len());
                    out[..fits].copy_from_slice(&found[..fits]);
                    promised(case, &found, looked);
                    (vec![0, 0, found.len() as u64, looked], out)
                }
                Err(r) => (refused(&r, 2), out),
            }
        }
        Case::Batch { d, tiles, tree, kinds, windows, places, room } => {
            let mut out: Vec<u32> = (0..*room as u32).map(|i| 0xdead_0000 + i).collect();
            let records = places / RECORD_PLACES;
            let asked = if places % RECORD_PLACES == 0 {
                rules::batch(d, *tiles, tree, kinds, windows, records, &mut out)
            } else {
                rules::refuse(rules::refusal::RUNS, 0)
            };
            let Ok(asked) = asked else {
                let mut answer = vec![rules::refusal::RUNS, 0, 0];
                answer.resize(3 + places, u64::MAX);
                return (answer, out);
            };
            let mut answer = vec![0, 0, records as u64];
            for one in asked {
                answer.extend(match one.answer {
                    Ok((found, looked)) => vec![0, 0, found, looked],
                    Err(r) => refused(&r, 2),
                });
                answer.push(one.used as u64);
            }
            (answer, out)
        }
        Case::BoxTest { d, stored, kinds, ends } => (
            match rules::box_test(d, stored, kinds, ends) {
                Ok((meets, read)) => vec![0, 0, u64::from(meets), read],
                Err(r) => refused(&r, 2),
            },
            vec![],
        ),
        Case::Offsets { var, tiles, size, list, tile } => {
            let checked = if *var { rules::var_offsets } else { rules::offsets }(*tiles, *size, list);
            let mut answer = match &checked {
                Ok(_) => vec![0, 0, *tiles],
                Err(r) => refused(r, 1),
            };
            let (offset, extent) = rules::extent(&checked, *size, *tile);
            answer.extend([offset, extent]);
            (answer, vec![])
        }
        Case::Write { d, tiles, fanout, leaves, room } => {
            let mut out = vec![0xa5u32; *room];
            let mut answer = match rules::write_tree(d, *tiles, *fanout, leaves, *room) {
                Ok(body) => {
                    for (place, byte) in out.iter_mut().zip(&body) {
                        *place = u32::from(*byte);
                    }
                    vec![0, 0, body.len() as u64]
                }
                Err(r) => refused(&r, 1),
            };
            match rules::tree_length(d, *tiles, *fanout) {
                Ok(length) => answer.extend([0, 0, length as u64]),
                Err(r) => answer.extend(refused(&r, 1)),
            }
            (answer, out)
        }
        Case::Report { description, footer, tree, offsets, room } => {
            let text = rules::report(description, footer, tree, offsets);
            let mut out = vec![0xa5u32; *room];
            if text.len() <= *room {
                for (place, byte) in out.iter_mut().zip(&text) {
                    *place = *byte as u32;
                }
            }
            (vec![text.len() as u64], out)
        }
        Case::Sizes { tiles, list } => (
            match rules::sizes(*tiles, list) {
                Ok(sum) => vec![0, 0, sum],
                Err(r) => refused(&r, 1),
            },
            vec![],
        ),
    }
}

fn footer_numbers(d: &rules::Description, file_size: u64, data: &[u8], tile: u64) -> Vec<u64> {
    let read = rules::footer(d, file_size, data);
    let mut answer = footer_places(d, data, &read);
    answer.extend(read.map_or([0, 0], |f| [rules::cells(&f, d.capacity, tile), (f.tiles - 1) * d.capacity + f.last_cells]));
    answer
}

/// The places of a footer's answer, and after them where the schema name starts and its bytes.
pub fn footer_places(d: &rules::Description, data: &[u8], read: &rules::Answer<rules::Footer>) -> Vec<u64> {
    let mut answer = vec![];
    let no_side = [rules::INT64.number as u64, 0, 0];
    let most = |limits: std::ops::RangeInclusive<u64>| *limits.end() as usize;
    let (dimensions, fields) = (most(rules::limits::DIMENSIONS), most(rules::limits::FIELDS));
    match read {
        Ok(f) => {
            answer.extend([0, 0]);
            answer.extend(&f.numbers);
            let mut at = f.domain_at;
            for i in 0..dimensions {
                match d.kinds.get(i) {
                    Some(kind) => {
                        let half = rules::width(*kind) / 2;
                        answer.extend([*kind as u64, rules::number(data, at, half), rules::number(data, at + half, half)]);
                        at += 2 * half;
                    }
                    None => answer.extend(no_side),
                }
            }
            for list in &f.lists {
                let mut places = list.clone();
                places.resize(fields, 0);
                answer.extend(places);
            }
            answer.extend([f.name.0 as u64, f.name.1 as u64]);
        }
        Err(r) => {
            answer.extend(refused(r, 12));
            for _ in 0..dimensions {
                answer.extend(no_side);
            }
            answer.resize(answer.len() + 11 * fields + 2, 0);
        }
    }
    answer
}

/// The rules' own promises of the walk: the bound for every tree, flat listing and flat count where every box is inside its parent.
fn promised(case: &Case, found: &[u32], looked: u64) {
    let Case::Query { d, tiles, tree, kinds, ends, .. } = case else { return };
    let Ok(s) = rules::shape(d, *tiles, tree) else { panic!("a query that is not refused has a shape") };
    let f = s.fanout;
    assert!(looked * (f - 1) <= s.counts.len() as u64 * (f - 1) + (tiles - 1) * f, "the bound fails");
    let b = d.box_bytes();
    let contained = (1..s.counts.len()).all(|level| {
        (0..s.counts[level]).all(|k| {
            let parent = s.starts[level - 1] + (k / f) as usize * b;
            let here = rules::stored_box(&d.kinds, tree, s.starts[level] + k as usize * b);
            rules::inside(&here, &rules::stored_box(&d.kinds, tree, parent))
        })
    });
    if contained {
        let (listing, count) = rules::flat(d, &s, tree, &rules::window_of(kinds, ends));
        assert!(found == listing && looked == count, "the walk is not flat");
    }
}
