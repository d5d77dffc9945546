//! The exported C functions, each behind a safe one: slices in, the whole answer array out.
//!
//! What makes every call sound is said once here. The C functions take any input. They read within the lengths that
//! they are given, write every place of the answer array and nothing past it, write to a result buffer within its
//! length, and keep no pointer. A slice's pointer is valid for its length; that of an empty one may dangle, and
//! nothing is read or written through it. An answer array has the places that the header asks for, and a `&mut`
//! overlaps nothing else that is lent.

use crate::batch::Record;
use crate::places::{
    BATCH_PLACES, BOX_TEST_PLACES, COMMITTED_PLACES, EXTENT_PLACES, FOOTER_PLACES, NAME_PLACES, OFFSETS_PLACES,
    OPEN_PLACES, PARTS_PLACES, QUERY_PLACES, RECORD_PLACES, REPLAY_PLACES, SIZES_PLACES, WRITE_PLACES,
};
use crate::{Description, Kind};

#[rustfmt::skip] // one line a row of parameters, as in the header
extern "C" {
    fn tussockbell_version() -> u64;
    fn tussockbell_footer(kinds: *const u8, kinds_length: usize, fields: u64, capacity: u64, file_size: u64,
                          footer: *const u8, footer_length: usize, answer: *mut u64);
    fn tussockbell_schema_name(kinds: *const u8, kinds_length: usize, fields: u64, capacity: u64, file_size: u64,
                               footer: *const u8, footer_length: usize, answer: *mut u64);
    fn tussockbell_cells_at(tiles: u64, last_cells: u64, capacity: u64, tile: u64) -> u64;
    fn tussockbell_total_cells(kinds: *const u8, kinds_length: usize, fields: u64, capacity: u64, file_size: u64,
                               footer: *const u8, footer_length: usize) -> u64;
    fn tussockbell_open(kinds: *const u8, kinds_length: usize, fields: u64, capacity: u64, file_size: u64,
                        footer: *const u8, footer_length: usize, tree: *const u8, tree_length: usize,
                        answer: *mut u64);
    fn tussockbell_parts_start(kinds: *const u8, kinds_length: usize, fields: u64, capacity: u64, file_size: u64,
                               footer: *const u8, footer_length: usize, stated: u64, state: *mut u64);
    fn tussockbell_parts_block(state: *mut u64, work: *mut u8, work_length: usize, block: *const u8,
                               block_length: usize);
    fn tussockbell_parts_finish(state: *const u64, work: *const u8, work_length: usize, answer: *mut u64);
    fn tussockbell_query(kinds: *const u8, kinds_length: usize, fields: u64, capacity: u64, tiles: u64,
                         tree: *const u8, tree_length: usize, window_kinds: *const u8, window_kinds_length: usize,
                         window_ends: *const u8, window_ends_length: usize, out: *mut u32, out_length: usize,
                         answer: *mut u64);
    fn tussockbell_query_batch(kinds: *const u8, kinds_length: usize, fields: u64, capacity: u64, tiles: u64,
                               tree: *const u8, tree_length: usize, window_kinds: *const u8, window_kinds_length: usize,
                               windows: *const u8, windows_length: usize, records: *mut u64, records_length: usize,
                               out: *mut u32, out_length: usize, answer: *mut u64);
    fn tussockbell_box_test(kinds: *const u8, kinds_length: usize, fields: u64, capacity: u64, stored: *const u8,
                            stored_length: usize, window_kinds: *const u8, window_kinds_length: usize,
                            window_ends: *const u8, window_ends_length: usize, answer: *mut u64);
    fn tussockbell_offsets(tiles: u64, size: u64, list: *const u8, list_length: usize, answer: *mut u64);
    fn tussockbell_var_offsets(tiles: u64, size: u64, list: *const u8, list_length: usize, answer: *mut u64);
    fn tussockbell_extent_at(tiles: u64, size: u64, list: *const u8, list_length: usize, tile: u64, answer: *mut u64);
    fn tussockbell_sizes(tiles: u64, list: *const u8, list_length: usize, answer: *mut u64);
    fn tussockbell_write_tree(kinds: *const u8, kinds_length: usize, fields: u64, capacity: u64, tiles: u64,
                              fanout: u64, leaves: *const u8, leaves_length: usize, out: *mut u8, out_length: usize,
                              answer: *mut u64);
    fn tussockbell_tree_length(kinds: *const u8, kinds_length: usize, fields: u64, capacity: u64, tiles: u64,
                               fanout: u64, answer: *mut u64);
    fn tussockbell_report(description: *const u8, description_length: usize, footer: *const u8, footer_length: usize,
                          tree: *const u8, tree_length: usize, offsets: *const u8, offsets_length: usize,
                          out: *mut u8, out_length: usize) -> usize;
}

pub(crate) fn version() -> u64 {
    // SAFETY: there are no arguments.
    unsafe { tussockbell_version() }
}

/// Kinds as bytes: a [`Kind`] is its number in one byte, so that nothing is copied.
fn bytes(kinds: &[Kind]) -> *const u8 {
    kinds.as_ptr().cast()
}

/// A description and a footer that are asked about together, with the size of the metadata file.
#[derive(Clone, Copy, PartialEq)]
pub(crate) struct Asked<'a> {
    pub description: Description<'a>,
    pub file_size: u64,
    pub footer: &'a [u8],
}

/// Calls one of the functions that start with a description and a footer.
macro_rules! with_footer {
    ($function:ident, $asked:expr $(, $more:expr)*) => {{
        let Asked { description: d, file_size, footer } = $asked;
        let (kinds, kinds_length) = (bytes(d.kinds), d.kinds.len());
        $function(kinds, kinds_length, d.fields, d.capacity, file_size, footer.as_ptr(), footer.len() $(, $more)*)
    }};
}

pub(crate) fn footer(asked: Asked) -> [u64; FOOTER_PLACES] {
    let mut answer = [0; FOOTER_PLACES];
    // SAFETY: pointers and lengths of slices, and an answer array of the header's places.
    unsafe { with_footer!(tussockbell_footer, asked, answer.as_mut_ptr()) };
    answer
}

pub(crate) fn schema_name(asked: Asked) -> [u64; NAME_PLACES] {
    let mut answer = [0; NAME_PLACES];
    // SAFETY: pointers and lengths of slices, and an answer array of the header's places.
    unsafe { with_footer!(tussockbell_schema_name, asked, answer.as_mut_ptr()) };
    answer
}

pub(crate) fn cells_at(tiles: u64, last_cells: u64, capacity: u64, tile: u64) -> u64 {
    // SAFETY: numbers alone.
    unsafe { tussockbell_cells_at(tiles, last_cells, capacity, tile) }
}

pub(crate) fn total_cells(asked: Asked) -> u64 {
    // SAFETY: pointers and lengths of slices.
    unsafe { with_footer!(tussockbell_total_cells, asked) }
}

pub(crate) fn open(asked: Asked, tree: &[u8]) -> [u64; OPEN_PLACES] {
    let mut answer = [0; OPEN_PLACES];
    // SAFETY: pointers and lengths of slices, and an answer array of the header's places.
    unsafe { with_footer!(tussockbell_open, asked, tree.as_ptr(), tree.len(), answer.as_mut_ptr()) };
    answer
}

pub(crate) fn parts_start(asked: Asked, stated: u64) -> [u64; PARTS_PLACES] {
    let mut state = [0; PARTS_PLACES];
    // SAFETY: pointers and lengths of slices, and a state of the header's places.
    unsafe { with_footer!(tussockbell_parts_start, asked, stated, state.as_mut_ptr()) };
    state
}

pub(crate) fn parts_block(state: &mut [u64; PARTS_PLACES], work: &mut [u8], block: &[u8]) {
    // SAFETY: a state of the header's places, and pointers and lengths of slices, the buffer lent to nobody else.
    unsafe {
        tussockbell_parts_block(state.as_mut_ptr(), work.as_mut_ptr(), work.len(), block.as_ptr(), block.len());
    }
}

pub(crate) fn parts_finish(state: &[u64; PARTS_PLACES], work: &[u8]) -> [u64; OPEN_PLACES] {
    let mut answer = [0; OPEN_PLACES];
    // SAFETY: a state and an answer array of the header's places, and pointer and length of a slice.
    unsafe { tussockbell_parts_finish(state.as_ptr(), work.as_ptr(), work.len(), answer.as_mut_ptr()) };
    answer
}

pub(crate) fn query(
    d: &Description,
    tiles: u64,
    tree: &[u8],
    window_kinds: &[Kind],
    window_ends: &[u8],
    out: &mut [u32],
) -> [u64; QUERY_PLACES] {
    let mut answer = [0; QUERY_PLACES];
    // SAFETY: pointers and lengths of slices, an answer array of the header's places, and a buffer lent to nobody else.
    unsafe {
        tussockbell_query(
            bytes(d.kinds),
            d.kinds.len(),
            d.fields,
            d.capacity,
            tiles,
            tree.as_ptr(),
            tree.len(),
            bytes(window_kinds),
            window_kinds.len(),
            window_ends.as_ptr(),
            window_ends.len(),
            out.as_mut_ptr(),
            out.len(),
            answer.as_mut_ptr(),
        )
    };
    answer
}

pub(crate) fn query_batch(
    d: &Description,
    tiles: u64,
    tree: &[u8],
    window_kinds: &[Kind],
    windows: &[u8],
    records: &mut [Record],
    out: &mut [u32],
) -> [u64; BATCH_PLACES] {
    let mut answer = [0; BATCH_PLACES];
    // SAFETY: pointers and lengths of slices, of which a record is its numbers in the header's places and nothing else;
    // an answer array of the header's places, and buffers lent to nobody else.
    unsafe {
        tussockbell_query_batch(
            bytes(d.kinds),
            d.kinds.len(),
            d.fields,
            d.capacity,
            tiles,
            tree.as_ptr(),
            tree.len(),
            bytes(window_kinds),
            window_kinds.len(),
            windows.as_ptr(),
            windows.len(),
            records.as_mut_ptr().cast(),
            records.len() * RECORD_PLACES,
            out.as_mut_ptr(),
            out.len(),
            answer.as_mut_ptr(),
        )
    };
    answer
}

pub(crate) fn box_test(
    d: &Description,
    stored: &[u8],
    window_kinds: &[Kind],
    window_ends: &[u8],
) -> [u64; BOX_TEST_PLACES] {
    let mut answer = [0; BOX_TEST_PLACES];
    // SAFETY: pointers and lengths of slices, and an answer array of the header's places.
    unsafe {
        tussockbell_box_test(
            bytes(d.kinds),
            d.kinds.len(),
            d.fields,
            d.capacity,
            stored.as_ptr(),
            stored.len(),
            bytes(window_kinds),
            window_kinds.len(),
            window_ends.as_ptr(),
            window_ends.len(),
            answer.as_mut_ptr(),
        )
    };
    answer
}

pub(crate) fn offsets(tiles: u64, size: u64, list: &[u8]) -> [u64; OFFSETS_PLACES] {
    let mut answer = [0; OFFSETS_PLACES];
    // SAFETY: a slice's pointer and length, and an answer array of the header's places.
    unsafe { tussockbell_offsets(tiles, size, list.as_ptr(), list.len(), answer.as_mut_ptr()) };
    answer
}

pub(crate) fn var_offsets(tiles: u64, size: u64, list: &[u8]) -> [u64; OFFSETS_PLACES] {
    let mut answer = [0; OFFSETS_PLACES];
    // SAFETY: a slice's pointer and length, and an answer array of the header's places.
    unsafe { tussockbell_var_offsets(tiles, size, list.as_ptr(), list.len(), answer.as_mut_ptr()) };
    answer
}

pub(crate) fn extent_at(tiles: u64, size: u64, list: &[u8], tile: u64) -> [u64; EXTENT_PLACES] {
    let mut answer = [0; EXTENT_PLACES];
    // SAFETY: a slice's pointer and length, and an answer array of the header's places.
    unsafe { tussockbell_extent_at(tiles, size, list.as_ptr(), list.len(), tile, answer.as_mut_ptr()) };
    answer
}

pub(crate) fn sizes(tiles: u64, list: &[u8]) -> [u64; SIZES_PLACES] {
    let mut answer = [0; SIZES_PLACES];
    // SAFETY: a slice's pointer and length, and an answer array of the header's places.
    unsafe { tussockbell_sizes(tiles, list.as_ptr(), list.len(), answer.as_mut_ptr()) };
    answer
}

pub(crate) fn write_tree(
    d: &Description,
    tiles: u64,
    fanout: u64,
    leaves: &[u8],
    out: &mut [u8],
) -> [u64; WRITE_PLACES] {
    let mut answer = [0; WRITE_PLACES];
    // SAFETY: pointers and lengths of slices, an answer array of the header's places, and a buffer lent to nobody else.
    unsafe {
        tussockbell_write_tree(
            bytes(d.kinds),
            d.kinds.len(),
            d.fields,
            d.capacity,
            tiles,
            fanout,
            leaves.as_ptr(),
            leaves.len(),
            out.as_mut_ptr(),
            out.len(),
            answer.as_mut_ptr(),
        )
    };
    answer
}

pub(crate) fn tree_length(d: &Description, tiles: u64, fanout: u64) -> [u64; WRITE_PLACES] {
    let mut answer = [0; WRITE_PLACES];
    let (kinds, kinds_length) = (bytes(d.kinds), d.kinds.len());
    // SAFETY: a slice's pointer and length, and an answer array of the header's places.
    unsafe { tussockbell_tree_length(kinds, kinds_length, d.fields, d.capacity, tiles, fanout, answer.as_mut_ptr()) };
    answer
}

pub(crate) fn report(description: &[u8], footer: &[u8], tree: &[u8], offsets: &[u8], out: &mut [u8]) -> usize {
    // SAFETY: pointers and lengths of slices, and a buffer lent to nobody else.
    unsafe {
        tussockbell_report(
            description.as_ptr(),
            description.len(),
            footer.as_ptr(),
            footer.len(),
            tree.as_ptr(),
            tree.len(),
            offsets.as_ptr(),
            offsets.len(),
            out.as_mut_ptr(),
            out.len(),
        )
    }
}

// ---- old trees

use crate::places::CONVERT_PLACES;

#[rustfmt::skip] // as above
extern "C" {
    fn tussockbell_convert(kinds: *const u8, kinds_length: usize, fields: u64, capacity: u64, file_size: u64,
                           footer: *const u8, footer_length: usize, tree: *const u8, tree_length: usize, out: *mut u8,
                           out_length: usize, answer: *mut u64);
    fn tussockbell_convert_length(kinds: *const u8, kinds_length: usize, fields: u64, capacity: u64, file_size: u64,
                                  footer: *const u8, footer_length: usize, tree: *const u8, tree_length: usize,
                                  answer: *mut u64);
    fn tussockbell_convert_footer(kinds: *const u8, kinds_length: usize, fields: u64, capacity: u64, file_size: u64,
                                  footer: *const u8, footer_length: usize, out: *mut u8, out_length: usize,
                                  answer: *mut u64);
}

pub(crate) fn convert(asked: Asked, tree: &[u8], out: &mut [u8]) -> [u64; CONVERT_PLACES] {
    let (mut answer, (t, length)) = ([0; CONVERT_PLACES], (tree.as_ptr(), tree.len()));
    // SAFETY: pointers and lengths of slices, an answer array of the header's places, and a buffer lent to nobody else.
    unsafe {
        with_footer!(tussockbell_convert, asked, t, length, out.as_mut_ptr(), out.len(), answer.as_mut_ptr());
    }
    answer
}

pub(crate) fn convert_length(asked: Asked, tree: &[u8]) -> [u64; CONVERT_PLACES] {
    let mut answer = [0; CONVERT_PLACES];
    // SAFETY: pointers and lengths of slices, and an answer array of the header's places.
    unsafe { with_footer!(tussockbell_convert_length, asked, tree.as_ptr(), tree.len(), answer.as_mut_ptr()) };
    answer
}

pub(crate) fn convert_footer(asked: Asked, out: &mut [u8]) -> [u64; CONVERT_PLACES] {
    let mut answer = [0; CONVERT_PLACES];
    // SAFETY: pointers and lengths of slices, an answer array of the header's places, and a buffer lent to nobody else.
    unsafe { with_footer!(tussockbell_convert_footer, asked, out.as_mut_ptr(), out.len(), answer.as_mut_ptr()) };
    answer
}

// ---- listings

#[rustfmt::skip] // one line a row of parameters, as in the header
extern "C" {
    fn tussockbell_committed(listing: *const u8, listing_length: usize, time: u64, out: *mut u32, out_length: usize,
                             answer: *mut u64);
}

pub(crate) fn committed(listing: &[u8], time: u64, out: &mut [u32]) -> [u64; COMMITTED_PLACES] {
    let mut answer = [0; COMMITTED_PLACES];
    let (text, length) = (listing.as_ptr(), listing.len());
    // SAFETY: pointers and lengths of slices, an answer array of the header's places, and a buffer lent to nobody else.
    unsafe { tussockbell_committed(text, length, time, out.as_mut_ptr(), out.len(), answer.as_mut_ptr()) };
    answer
}

// ---- mins, maxes, sums and null counts

use crate::places::{NULL_COUNTS_PLACES, RANGES_PLACES, VALUES_PLACES, VAR_VALUE_PLACES};

#[rustfmt::skip] // one line a row of parameters, as in the header
extern "C" {
    fn tussockbell_values(kind: u64, tiles: u64, body: *const u8, body_length: usize, answer: *mut u64);
    fn tussockbell_value_at(kind: u64, tiles: u64, body: *const u8, body_length: usize, tile: u64) -> u64;
    fn tussockbell_ranges(kind: u64, tiles: u64, mins: *const u8, mins_length: usize, maxes: *const u8,
                          maxes_length: usize, answer: *mut u64);
    fn tussockbell_var_values(tiles: u64, body: *const u8, body_length: usize, answer: *mut u64);
    fn tussockbell_var_value_at(tiles: u64, body: *const u8, body_length: usize, tile: u64, answer: *mut u64);
    fn tussockbell_var_ranges(tiles: u64, mins: *const u8, mins_length: usize, maxes: *const u8, maxes_length: usize,
                              answer: *mut u64);
    fn tussockbell_sums(tiles: u64, body: *const u8, body_length: usize, answer: *mut u64);
    fn tussockbell_sum_at(tiles: u64, body: *const u8, body_length: usize, tile: u64) -> u64;
    fn tussockbell_null_counts(kinds: *const u8, kinds_length: usize, fields: u64, capacity: u64, file_size: u64,
                               footer: *const u8, footer_length: usize, body: *const u8, body_length: usize,
                               answer: *mut u64);
}

pub(crate) fn values(kind: Kind, tiles: u64, body: &[u8]) -> [u64; VALUES_PLACES] {
    let mut answer = [0; VALUES_PLACES];
    // SAFETY: pointer and length of a slice, and an answer array of the header's places.
    unsafe { tussockbell_values(kind as u64, tiles, body.as_ptr(), body.len(), answer.as_mut_ptr()) };
    answer
}

pub(crate) fn value_at(kind: Kind, tiles: u64, body: &[u8], tile: u64) -> u64 {
    // SAFETY: pointer and length of a slice.
    unsafe { tussockbell_value_at(kind as u64, tiles, body.as_ptr(), body.len(), tile) }
}

pub(crate) fn ranges(kind: Kind, tiles: u64, mins: &[u8], maxes: &[u8]) -> [u64; RANGES_PLACES] {
    let (mut answer, [a, b]) = ([0; RANGES_PLACES], [mins, maxes]);
    // SAFETY: pointers and lengths of slices, and an answer array of the header's places.
    unsafe { tussockbell_ranges(kind as u64, tiles, a.as_ptr(), a.len(), b.as_ptr(), b.len(), answer.as_mut_ptr()) };
    answer
}

pub(crate) fn var_values(tiles: u64, body: &[u8]) -> [u64; VALUES_PLACES] {
    let mut answer = [0; VALUES_PLACES];
    // SAFETY: pointer and length of a slice, and an answer array of the header's places.
    unsafe { tussockbell_var_values(tiles, body.as_ptr(), body.len(), answer.as_mut_ptr()) };
    answer
}

pub(crate) fn var_value_at(tiles: u64, body: &[u8], tile: u64) -> [u64; VAR_VALUE_PLACES] {
    let mut answer = [0; VAR_VALUE_PLACES];
    // SAFETY: pointer and length of a slice, and an answer array of the header's places.
    unsafe { tussockbell_var_value_at(tiles, body.as_ptr(), body.len(), tile, answer.as_mut_ptr()) };
    answer
}

pub(crate) fn var_ranges(tiles: u64, mins: &[u8], maxes: &[u8]) -> [u64; RANGES_PLACES] {
    let (mut answer, [a, b]) = ([0; RANGES_PLACES], [mins, maxes]);
    // SAFETY: pointers and lengths of slices, and an answer array of the header's places.
    unsafe { tussockbell_var_ranges(tiles, a.as_ptr(), a.len(), b.as_ptr(), b.len(), answer.as_mut_ptr()) };
    answer
}

pub(crate) fn sums(tiles: u64, body: &[u8]) -> [u64; VALUES_PLACES] {
    let mut answer = [0; VALUES_PLACES];
    // SAFETY: pointer and length of a slice, and an answer array of the header's places.
    unsafe { tussockbell_sums(tiles, body.as_ptr(), body.len(), answer.as_mut_ptr()) };
    answer
}

pub(crate) fn sum_at(tiles: u64, body: &[u8], tile: u64) -> u64 {
    // SAFETY: pointer and length of a slice.
    unsafe { tussockbell_sum_at(tiles, body.as_ptr(), body.len(), tile) }
}

pub(crate) fn null_counts(asked: Asked, body: &[u8]) -> [u64; NULL_COUNTS_PLACES] {
    let mut answer = [0; NULL_COUNTS_PLACES];
    // SAFETY: pointers and lengths of slices, and an answer array of the header's places.
    unsafe { with_footer!(tussockbell_null_counts, asked, body.as_ptr(), body.len(), answer.as_mut_ptr()) };
    answer
}

// ---- logs of queries

#[rustfmt::skip] // as above
extern "C" {
    fn tussockbell_replay(kinds: *const u8, kinds_length: usize, fields: u64, capacity: u64, tiles: u64,
                          tree: *const u8, tree_length: usize, log: *const u8, log_length: usize, out: *mut u8,
                          out_length: usize, answer: *mut u64);
}

pub(crate) fn replay(d: &Description, tiles: u64, tree: &[u8], log: &[u8], out: &mut [u8]) -> [u64; REPLAY_PLACES] {
    let mut answer = [0; REPLAY_PLACES];
    // SAFETY: pointers and lengths of slices, an answer array of the header's places, and a buffer lent to nobody else.
    unsafe {
        tussockbell_replay(
            bytes(d.kinds),
            d.kinds.len(),
            d.fields,
            d.capacity,
            tiles,
            tree.as_ptr(),
            tree.len(),
            log.as_ptr(),
            log.len(),
            out.as_mut_ptr(),
            out.len(),
            answer.as_mut_ptr(),
        )
    };
    answer
}

// ---- dense fragments

use crate::places::{DENSE_CHECK_PLACES, DENSE_PLACES};
use crate::ranges::Window;
use crate::Order;

#[rustfmt::skip] // as above
extern "C" {
    fn tussockbell_dense_check(kinds: *const u8, kinds_length: usize, fields: u64, capacity: u64,
                               domain_kinds: *const u8, domain_kinds_length: usize, domain_ends: *const u8,
                               domain_ends_length: usize, extents: *const u64, extents_length: usize, order: u64,
                               answer: *mut u64);
    fn tussockbell_dense_query(kinds: *const u8, kinds_length: usize, fields: u64, capacity: u64,
                               domain_kinds: *const u8, domain_kinds_length: usize, domain_ends: *const u8,
                               domain_ends_length: usize, extents: *const u64, extents_length: usize, order: u64,
                               window_kinds: *const u8, window_kinds_length: usize, window_ends: *const u8,
                               window_ends_length: usize, out: *mut u32, out_length: usize, answer: *mut u64);
    fn tussockbell_dense_footer(kinds: *const u8, kinds_length: usize, fields: u64, capacity: u64, file_size: u64,
                                footer: *const u8, footer_length: usize, answer: *mut u64);
    fn tussockbell_dense_schema_name(kinds: *const u8, kinds_length: usize, fields: u64, capacity: u64, file_size: u64,
                                     footer: *const u8, footer_length: usize, answer: *mut u64);
}

/// A grid that is asked about.
#[derive(Clone, Copy)]
pub(crate) struct Grid<'a> {
    pub description: Description<'a>,
    pub domain: &'a Window,
    pub extents: &'a [u64],
    pub order: Order,
}

/// Calls one of the functions that start with a grid.
macro_rules! with_grid {
    ($function:ident, $grid:expr $(, $more:expr)*) => {{
        let Grid { description: d, domain, extents, order } = $grid;
        let (kinds, ends) = (domain.kinds(), domain.ends());
        $function(
            bytes(d.kinds), d.kinds.len(), d.fields, d.capacity, bytes(kinds), kinds.len(), ends.as_ptr(), ends.len(),
            extents.as_ptr(), extents.len(), order as u64 $(, $more)*
        )
    }};
}

pub(crate) fn dense_check(grid: Grid) -> [u64; DENSE_CHECK_PLACES] {
    let mut answer = [0; DENSE_CHECK_PLACES];
    // SAFETY: pointers and lengths of slices, and an answer array of the header's places.
    unsafe { with_grid!(tussockbell_dense_check, grid, answer.as_mut_ptr()) };
    answer
}

pub(crate) fn dense_query(grid: Grid, window: &Window, out: &mut [u32]) -> [u64; DENSE_PLACES] {
    let (mut answer, kinds, ends) = ([0; DENSE_PLACES], window.kinds(), window.ends());
    // SAFETY: pointers and lengths of slices, an answer array of the header's places, and a buffer lent to nobody else.
    unsafe {
        with_grid!(
            tussockbell_dense_query,
            grid,
            bytes(kinds),
            kinds.len(),
            ends.as_ptr(),
            ends.len(),
            out.as_mut_ptr(),
            out.len(),
            answer.as_mut_ptr()
        )
    };
    answer
}

pub(crate) fn dense_footer(asked: Asked) -> [u64; FOOTER_PLACES] {
    let mut answer = [0; FOOTER_PLACES];
    // SAFETY: pointers and lengths of slices, and an answer array of the header's places.
    unsafe { with_footer!(tussockbell_dense_footer, asked, answer.as_mut_ptr()) };
    answer
}

pub(crate) fn dense_schema_name(asked: Asked) -> [u64; NAME_PLACES] {
    let mut answer = [0; NAME_PLACES];
    // SAFETY: pointers and lengths of slices, and an answer array of the header's places.
    unsafe { with_footer!(tussockbell_dense_schema_name, asked, answer.as_mut_ptr()) };
    answer
}

// ---- read plans

use crate::places::PLAN_PLACES;
use crate::Extent;

#[rustfmt::skip] // as above
extern "C" {
    fn tussockbell_read_plan(tiles: u64, size: u64, list: *const u8, list_length: usize, gap: u64, run: *const u32,
                             run_length: usize, work: *mut u8, work_length: usize, out: *mut u64, out_length: usize,
                             answer: *mut u64);
    fn tussockbell_var_read_plan(tiles: u64, size: u64, list: *const u8, list_length: usize, gap: u64, run: *const u32,
                                 run_length: usize, work: *mut u8, work_length: usize, out: *mut u64,
                                 out_length: usize, answer: *mut u64);
    fn tussockbell_read_plan_at(tiles: u64, size: u64, list: *const u8, list_length: usize, gap: u64, run: *const u32,
                                run_length: usize, work: *mut u8, work_length: usize, out: *mut u64, out_length: usize,
                                answer: *mut u64);
    fn tussockbell_run_extents_at(tiles: u64, size: u64, list: *const u8, list_length: usize, run: *const u32,
                                  run_length: usize, out: *mut u64, out_length: usize);
    fn tussockbell_run_cells_at(tiles: u64, last_cells: u64, capacity: u64, run: *const u32, run_length: usize,
                                out: *mut u64, out_length: usize);
}

/// A list of offsets, by its number of tiles and the size of its data file, and a run of tile numbers.
#[derive(Clone, Copy)]
pub(crate) struct Run<'a> {
    pub tiles: u64,
    pub size: u64,
    pub list: &'a [u8],
    pub run: &'a [u32],
}

/// Ranges as numbers: an [`Extent`] is its two numbers, in this order.
fn numbers(out: &mut [Extent]) -> (*mut u64, usize) {
    (out.as_mut_ptr().cast(), 2 * out.len())
}

/// One of the functions that plan what is read.
macro_rules! plans {
    ($($name:ident $function:ident;)*) => {
        $(
            pub(crate) fn $name(lent: Run, gap: u64, work: &mut [u8], out: &mut [Extent]) -> [u64; PLAN_PLACES] {
                let mut answer = [0; PLAN_PLACES];
                let (Run { tiles, size, list, run }, (out, out_length)) = (lent, numbers(out));
                let (list, list_length, run, run_length) = (list.as_ptr(), list.len(), run.as_ptr(), run.len());
                let (work, work_length, answer_at) = (work.as_mut_ptr(), work.len(), answer.as_mut_ptr());
                // SAFETY: pointers and lengths of slices, of which work buffer and ranges are lent to nobody else, and an
                // answer array of the header's places.
                unsafe {
                    $function(
                        tiles, size, list, list_length, gap, run, run_length, work, work_length, out, out_length, answer_at,
                    )
                };
                answer
            }
        )*
    };
}

plans! {
    read_plan tussockbell_read_plan;
    var_read_plan tussockbell_var_read_plan;
    read_plan_at tussockbell_read_plan_at;
}

pub(crate) fn run_extents_at(lent: Run, out: &mut [Extent]) {
    let (Run { tiles, size, list, run }, (out, length)) = (lent, numbers(out));
    // SAFETY: pointers and lengths of slices, the ranges lent to nobody else.
    unsafe { tussockbell_run_extents_at(tiles, size, list.as_ptr(), list.len(), run.as_ptr(), run.len(), out, length) };
}

pub(crate) fn run_cells_at(tiles: u64, last_cells: u64, capacity: u64, run: &[u32], out: &mut [u64]) {
    let (numbers, length) = (out.as_mut_ptr(), out.len());
    // SAFETY: pointers and lengths of slices, the buffer lent to nobody else.
    unsafe { tussockbell_run_cells_at(tiles, last_cells, capacity, run.as_ptr(), run.len(), numbers, length) };
}
