//! The exported functions of the library, asked about a case.

use crate::cases::{footer_around, Case};
use crate::guard::Space;
use crate::right::FOOTER_PLACES;
use crate::rules::Description;

extern "C" {
    fn tussockbell_footer(k: *const u8, kl: usize, fields: u64, capacity: u64, file: u64, f: *const u8, fl: usize, answer: *mut u64);
    fn tussockbell_schema_name(k: *const u8, kl: usize, fields: u64, capacity: u64, file: u64, f: *const u8, fl: usize, answer: *mut u64);
    fn tussockbell_cells(k: *const u8, kl: usize, fields: u64, capacity: u64, file: u64, f: *const u8, fl: usize, tile: u64) -> u64;
    fn tussockbell_cells_at(tiles: u64, last: u64, capacity: u64, tile: u64) -> u64;
    fn tussockbell_total_cells(k: *const u8, kl: usize, fields: u64, capacity: u64, file: u64, f: *const u8, fl: usize) -> u64;
    fn tussockbell_open(
        k: *const u8, kl: usize, fields: u64, capacity: u64, file: u64, f: *const u8, fl: usize, t: *const u8, tl: usize, answer: *mut u64,
    );
    fn tussockbell_query(
        k: *const u8, kl: usize, fields: u64, capacity: u64, tiles: u64, t: *const u8, tl: usize, wk: *const u8, wkl: usize, we: *const u8, wel: usize,
        out: *mut u32, ol: usize, answer: *mut u64,
    );
    fn tussockbell_query_batch(
        k: *const u8, kl: usize, fields: u64, capacity: u64, tiles: u64, t: *const u8, tl: usize, wk: *const u8, wkl: usize, w: *const u8, wl: usize,
        records: *mut u64, rl: usize, out: *mut u32, ol: usize, answer: *mut u64,
    );
    fn tussockbell_box_test(
        k: *const u8, kl: usize, fields: u64, capacity: u64, b: *const u8, bl: usize, wk: *const u8, wkl: usize, we: *const u8, wel: usize,
        answer: *mut u64,
    );
    fn tussockbell_offsets(tiles: u64, size: u64, l: *const u8, ll: usize, answer: *mut u64);
    fn tussockbell_extent(tiles: u64, size: u64, l: *const u8, ll: usize, tile: u64, answer: *mut u64);
    fn tussockbell_var_offsets(tiles: u64, size: u64, l: *const u8, ll: usize, answer: *mut u64);
    fn tussockbell_var_extent(tiles: u64, size: u64, l: *const u8, ll: usize, tile: u64, answer: *mut u64);
    fn tussockbell_extent_at(tiles: u64, size: u64, l: *const u8, ll: usize, tile: u64, answer: *mut u64);
    fn tussockbell_sizes(tiles: u64, l: *const u8, ll: usize, answer: *mut u64);
    fn tussockbell_write_tree(
        k: *const u8, kl: usize, fields: u64, capacity: u64, tiles: u64, fanout: u64, l: *const u8, ll: usize, out: *mut u8, ol: usize, answer: *mut u64,
    );
    fn tussockbell_tree_length(k: *const u8, kl: usize, fields: u64, capacity: u64, tiles: u64, fanout: u64, answer: *mut u64);
    fn tussockbell_report(
        d: *const u8, dl: usize, f: *const u8, fl: usize, t: *const u8, tl: usize, o: *const u8, ol: usize, out: *mut u8, outl: usize,
    ) -> usize;
}

const FOOTER_TILES: usize = 6;
const FOOTER_LAST_CELLS: usize = 7;

/// Bytes to lend: where they are, or a copy between guard pages.
pub fn lend(data: &[u8], space: &mut Option<&mut Space>) -> *const u8 {
    match space {
        Some(space) => {
            let place = space.lend(data.len());
            unsafe { std::ptr::copy_nonoverlapping(data.as_ptr(), place, data.len()) };
            place
        }
        None => data.as_ptr(),
    }
}

/// The answer's numbers and the result buffer's last contents.
pub fn ask(case: &Case, mut space: Option<&mut Space>) -> (Vec<u64>, Vec<u32>) {
    if let Some(space) = &mut space {
        space.again();
    }
    match case {
        Case::Footer { d, file_size, footer, tile } => {
            let (k, f) = (lend(&d.kinds, &mut space), lend(footer, &mut space));
            (footer_answer(d, k, *file_size, f, footer.len(), *tile), vec![])
        }
        Case::Open { d, file_size, footer, tree } => {
            let (k, f, t) = (lend(&d.kinds, &mut space), lend(footer, &mut space), lend(tree, &mut space));
            let mut answer = vec![u64::MAX; 6];
            unsafe {
                tussockbell_open(k, d.kinds.len(), d.fields, d.capacity, *file_size, f, footer.len(), t, tree.len(), answer.as_mut_ptr())
            };
            (answer, vec![])
        }
        Case::Query { d, tiles, tree, kinds, ends, room } => {
            let (k, t) = (lend(&d.kinds, &mut space), lend(tree, &mut space));
            let (wk, we) = (lend(kinds, &mut space), lend(ends, &mut space));
            let before: Vec<u32> = (0..*room as u32).map(|i| 0xdead_0000 + i).collect();
            let bytes: Vec<u8> = before.iter().flat_map(|x| x.to_ne_bytes()).collect();
            let mut own = before.clone();
            let out = match &mut space {
                Some(_) => lend(&bytes, &mut space) as *mut u32,
                None => own.as_mut_ptr(),
            };
            let mut answer = vec![u64::MAX; 4];
            unsafe {
                tussockbell_query(
                    k, d.kinds.len(), d.fields, d.capacity, *tiles, t, tree.len(), wk, kinds.len(), we, ends.len(), out, *room, answer.as_mut_ptr(),
                );
                (answer, std::slice::from_raw_parts(out, *room).to_vec())
            }
        }
        Case::Batch { d, tiles, tree, kinds, windows, places, room } => {
            let (k, t) = (lend(&d.kinds, &mut space), lend(tree, &mut space));
            let (wk, w) = (lend(kinds, &mut space), lend(windows, &mut space));
            let before: Vec<u32> = (0..*room as u32).map(|i| 0xdead_0000 + i).collect();
            let (mut own, mut records) = (before.clone(), vec![u64::MAX; *places]);
            let bytes: Vec<u8> = before.iter().flat_map(|x| x.to_ne_bytes()).collect();
            let (out, r) = match &mut space {
                Some(_) => (lend(&bytes, &mut space) as *mut u32, lend(&vec![255; 8 * places], &mut space) as *mut u64),
                None => (own.as_mut_ptr(), records.as_mut_ptr()),
            };
            let mut answer = vec![u64::MAX; 3];
            unsafe {
                tussockbell_query_batch(
                    k, d.kinds.len(), d.fields, d.capacity, *tiles, t, tree.len(), wk, kinds.len(), w, windows.len(), r, *places, out, *room,
                    answer.as_mut_ptr(),
                );
                answer.extend(std::slice::from_raw_parts(r, *places));
                (answer, std::slice::from_raw_parts(out, *room).to_vec())
            }
        }
        Case::BoxTest { d, stored, kinds, ends } => {
            let (k, b) = (lend(&d.kinds, &mut space), lend(stored, &mut space));
            let (wk, we) = (lend(kinds, &mut space), lend(ends, &mut space));
            let mut answer = vec![u64::MAX; 4];
            unsafe {
                tussockbell_box_test(
                    k, d.kinds.len(), d.fields, d.capacity, b, stored.len(), wk, kinds.len(), we, ends.len(), answer.as_mut_ptr(),
                )
            };
            (answer, vec![])
        }
        Case::Offsets { var, tiles, size, list, tile } => {
            let l = lend(list, &mut space);
            let (mut answer, mut extent, mut again) = (vec![u64::MAX; 3], [u64::MAX; 2], [u64::MAX; 2]);
            unsafe {
                if *var {
                    tussockbell_var_offsets(*tiles, *size, l, list.len(), answer.as_mut_ptr());
                    tussockbell_var_extent(*tiles, *size, l, list.len(), *tile, extent.as_mut_ptr());
                } else {
                    tussockbell_offsets(*tiles, *size, l, list.len(), answer.as_mut_ptr());
                    tussockbell_extent(*tiles, *size, l, list.len(), *tile, extent.as_mut_ptr());
                }
                tussockbell_extent_at(*tiles, *size, l, list.len(), *tile, again.as_mut_ptr());
            }
            assert!(answer[0] != 0 || extent == again, "the two requests for a tile of an accepted list differ");
            answer.extend(extent);
            (answer, vec![])
        }
        Case::Report { description, footer, tree, offsets, room } => {
            let (a, b) = (lend(description, &mut space), lend(footer, &mut space));
            let (t, o) = (lend(tree, &mut space), lend(offsets, &mut space));
            let mut own = vec![0xa5u8; *room];
            let out = match &mut space {
                Some(_) => lend(&own.clone(), &mut space) as *mut u8,
                None => own.as_mut_ptr(),
            };
            unsafe {
                let length = tussockbell_report(a, description.len(), b, footer.len(), t, tree.len(), o, offsets.len(), out, *room);
                (vec![length as u64], std::slice::from_raw_parts(out, *room).iter().map(|x| *x as u32).collect())
            }
        }
        Case::Write { d, tiles, fanout, leaves, room } => {
            let (k, l) = (lend(&d.kinds, &mut space), lend(leaves, &mut space));
            let mut own = vec![0xa5u8; *room];
            let out = match &mut space {
                Some(_) => lend(&own.clone(), &mut space) as *mut u8,
                None => own.as_mut_ptr(),
            };
            let mut answer = vec![u64::MAX; 6];
            let (kl, fields, capacity) = (d.kinds.len(), d.fields, d.capacity);
            let written = unsafe {
                tussockbell_write_tree(k, kl, fields, capacity, *tiles, *fanout, l, leaves.len(), out, *room, answer.as_mut_ptr());
                tussockbell_tree_length(k, kl, fields, capacity, *tiles, *fanout, answer[3..].as_mut_ptr());
                std::slice::from_raw_parts(out, *room)
            };
            if answer[0] == 0 {
                opened_again(d, *tiles, *fanout, &written[..answer[2] as usize]);
            }
            (answer, written.iter().map(|x| u32::from(*x)).collect())
        }
        Case::Sizes { tiles, list } => {
            let l = lend(list, &mut space);
            let mut answer = vec![u64::MAX; 3];
            unsafe { tussockbell_sizes(*tiles, l, list.len(), answer.as_mut_ptr()) };
            (answer, vec![])
        }
    }
}

/// What was written is opened with a footer whose domain is the root, and a window as wide as the root finds every tile.
fn opened_again(d: &Description, tiles: u64, fanout: u64, tree: &[u8]) {
    let domain = &tree[16..16 + d.box_bytes()];
    let footer = footer_around(d, tiles, domain);
    let (mut opened, mut asked) = ([u64::MAX; 6], [u64::MAX; 4]);
    let mut out = vec![u32::MAX; tiles as usize];
    let (k, kl, fields, capacity) = (d.kinds.as_ptr(), d.kinds.len(), d.fields, d.capacity);
    let (t, tl) = (tree.as_ptr(), tree.len());
    unsafe {
        tussockbell_open(k, kl, fields, capacity, u64::MAX, footer.as_ptr(), footer.len(), t, tl, opened.as_mut_ptr());
        tussockbell_query(k, kl, fields, capacity, tiles, t, tl, k, kl, domain.as_ptr(), domain.len(), out.as_mut_ptr(), out.len(), asked.as_mut_ptr());
    }
    assert_eq!(opened[..5], [0, 0, 0, tiles, fanout], "a written tree is not accepted");
    assert!(asked[..3] == [0, 0, tiles] && out.iter().enumerate().all(|(i, tile)| i == *tile as usize), "a written tree loses a tile");
}

fn footer_answer(d: &Description, k: *const u8, file: u64, f: *const u8, length: usize, tile: u64) -> Vec<u64> {
    let mut answer = vec![u64::MAX; FOOTER_PLACES + 2];
    let (kl, fields, capacity) = (d.kinds.len(), d.fields, d.capacity);
    unsafe {
        tussockbell_footer(k, kl, fields, capacity, file, f, length, answer.as_mut_ptr());
        tussockbell_schema_name(k, kl, fields, capacity, file, f, length, answer[FOOTER_PLACES..].as_mut_ptr());
        let cells = tussockbell_cells(k, kl, fields, capacity, file, f, length, tile);
        let again = tussockbell_cells_at(answer[FOOTER_TILES], answer[FOOTER_LAST_CELLS], capacity, tile);
        assert_eq!(cells, again, "the two requests for a tile's cells differ");
        answer.push(cells);
        answer.push(tussockbell_total_cells(k, kl, fields, capacity, file, f, length));
    }
    answer
}
