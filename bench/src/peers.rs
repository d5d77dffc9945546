//! The library through its C functions, and the R-tree libraries through theirs.

use crate::plain::Kind;
use std::ffi::c_void;

#[link(name = "tussockbell", kind = "static")]
unsafe extern "C" {
    fn tussockbell_open(
        kinds: *const u8, kinds_length: usize, fields: u64, capacity: u64, file_size: u64, footer: *const u8, footer_length: usize,
        tree: *const u8, tree_length: usize, answer: *mut u64,
    );
    fn tussockbell_query(
        kinds: *const u8, kinds_length: usize, fields: u64, capacity: u64, tiles: u64, tree: *const u8, tree_length: usize,
        window_kinds: *const u8, window_kinds_length: usize, window_ends: *const u8, window_ends_length: usize, out: *mut u32,
        out_length: usize, answer: *mut u64,
    );
    fn tussockbell_query_batch(
        kinds: *const u8, kinds_length: usize, fields: u64, capacity: u64, tiles: u64, tree: *const u8, tree_length: usize,
        window_kinds: *const u8, window_kinds_length: usize, windows: *const u8, windows_length: usize, records: *mut u64,
        records_length: usize, out: *mut u32, out_length: usize, answer: *mut u64,
    );
    fn tussockbell_offsets(tiles: u64, size: u64, list: *const u8, list_length: usize, answer: *mut u64);
    fn tussockbell_var_offsets(tiles: u64, size: u64, list: *const u8, list_length: usize, answer: *mut u64);
    fn tussockbell_write_tree(
        kinds: *const u8, kinds_length: usize, fields: u64, capacity: u64, tiles: u64, fanout: u64, leaves: *const u8, leaves_length: usize,
        out: *mut u8, out_length: usize, answer: *mut u64,
    );
    fn tussockbell_sizes(tiles: u64, list: *const u8, list_length: usize, answer: *mut u64);
}

type Make = unsafe extern "C" fn(usize, usize, *const f64, usize, *const f64, usize) -> *mut c_void;
type Query = unsafe extern "C" fn(*const c_void, usize, *mut u32) -> usize;
type Free = unsafe extern "C" fn(*mut c_void);

#[link(name = "peers", kind = "static")]
#[link(name = "spatialindex")]
#[link(name = "stdc++")]
unsafe extern "C" {
    fn tussockbell_parts_start(
        k: *const u8, kl: usize, fields: u64, capacity: u64, file: u64, f: *const u8, fl: usize, stated: u64, state: *mut u64,
    );
    fn tussockbell_parts_block(state: *mut u64, w: *mut u8, wl: usize, b: *const u8, bl: usize);
    fn tussockbell_parts_finish(state: *const u64, w: *const u8, wl: usize, answer: *mut u64);
    fn boost_make_int32(d: usize, capacity: usize, ends: *const f64, boxes: usize, window_ends: *const f64, windows: usize) -> *mut c_void;
    fn boost_make_int64(d: usize, capacity: usize, ends: *const f64, boxes: usize, window_ends: *const f64, windows: usize) -> *mut c_void;
    fn boost_make_float64(d: usize, capacity: usize, ends: *const f64, boxes: usize, window_ends: *const f64, windows: usize) -> *mut c_void;
    fn boost_make_uint64(d: usize, capacity: usize, ends: *const f64, boxes: usize, window_ends: *const f64, windows: usize) -> *mut c_void;
    fn boost_query(tree: *const c_void, window: usize, out: *mut u32) -> usize;
    fn boost_free(tree: *mut c_void);
    fn spatialindex_make(d: usize, capacity: usize, ends: *const f64, boxes: usize, window_ends: *const f64, windows: usize) -> *mut c_void;
    fn spatialindex_query(tree: *const c_void, window: usize, out: *mut u32) -> usize;
    fn spatialindex_free(tree: *mut c_void);
}

/// Number, place, which, tiles, fanout, levels.
pub fn open(kinds: &[u8], fields: u64, capacity: u64, file_size: u64, footer: &[u8], tree: &[u8]) -> [u64; 6] {
    let mut answer = [0; 6];
    unsafe {
        tussockbell_open(
            kinds.as_ptr(), kinds.len(), fields, capacity, file_size, footer.as_ptr(), footer.len(), tree.as_ptr(), tree.len(),
            answer.as_mut_ptr(),
        )
    }
    answer
}

/// The same of a tree in blocks of a given size.
#[allow(clippy::too_many_arguments)]
pub fn open_parts(
    kinds: &[u8], fields: u64, capacity: u64, file_size: u64, footer: &[u8], tree: &[u8], size: usize, work: &mut [u8],
) -> [u64; 6] {
    let (mut state, mut answer) = ([0; 40], [0; 6]);
    unsafe {
        tussockbell_parts_start(
            kinds.as_ptr(), kinds.len(), fields, capacity, file_size, footer.as_ptr(), footer.len(), tree.len() as u64, state.as_mut_ptr(),
        );
        for block in tree.chunks(size) {
            tussockbell_parts_block(state.as_mut_ptr(), work.as_mut_ptr(), work.len(), block.as_ptr(), block.len());
        }
        tussockbell_parts_finish(state.as_ptr(), work.as_ptr(), work.len(), answer.as_mut_ptr());
    }
    answer
}

/// Number, place, windows. A record is number, place, found, looked, used.
pub fn query_batch(
    kinds: &[u8], fields: u64, capacity: u64, tiles: u64, tree: &[u8], windows: &[u8], records: &mut [[u64; 5]], out: &mut [u32],
) -> [u64; 3] {
    let mut answer = [0; 3];
    unsafe {
        tussockbell_query_batch(
            kinds.as_ptr(), kinds.len(), fields, capacity, tiles, tree.as_ptr(), tree.len(), kinds.as_ptr(), kinds.len(), windows.as_ptr(),
            windows.len(), records.as_mut_ptr().cast(), 5 * records.len(), out.as_mut_ptr(), out.len(), answer.as_mut_ptr(),
        )
    }
    answer
}

/// Number, place, found, looked.
pub fn query(
    kinds: &[u8], fields: u64, capacity: u64, tiles: u64, tree: &[u8], window_kinds: &[u8], window_ends: &[u8], out: &mut [u32],
) -> [u64; 4] {
    let mut answer = [0; 4];
    unsafe {
        tussockbell_query(
            kinds.as_ptr(), kinds.len(), fields, capacity, tiles, tree.as_ptr(), tree.len(), window_kinds.as_ptr(), window_kinds.len(),
            window_ends.as_ptr(), window_ends.len(), out.as_mut_ptr(), out.len(), answer.as_mut_ptr(),
        )
    }
    answer
}

/// Number, place, tiles.
pub fn offsets(tiles: u64, size: u64, list: &[u8]) -> [u64; 3] {
    let mut answer = [0; 3];
    unsafe { tussockbell_offsets(tiles, size, list.as_ptr(), list.len(), answer.as_mut_ptr()) }
    answer
}

/// Number, place, tiles.
pub fn var_offsets(tiles: u64, size: u64, list: &[u8]) -> [u64; 3] {
    let mut answer = [0; 3];
    unsafe { tussockbell_var_offsets(tiles, size, list.as_ptr(), list.len(), answer.as_mut_ptr()) }
    answer
}

/// Number, place, sum.
pub fn sizes(tiles: u64, list: &[u8]) -> [u64; 3] {
    let mut answer = [0; 3];
    unsafe { tussockbell_sizes(tiles, list.as_ptr(), list.len(), answer.as_mut_ptr()) }
    answer
}

/// Number, place, length.
pub fn write_tree(kinds: &[u8], fields: u64, capacity: u64, tiles: u64, fanout: u64, leaves: &[u8], out: &mut [u8]) -> [u64; 3] {
    let mut answer = [0; 3];
    unsafe {
        tussockbell_write_tree(
            kinds.as_ptr(), kinds.len(), fields, capacity, tiles, fanout, leaves.as_ptr(), leaves.len(), out.as_mut_ptr(), out.len(),
            answer.as_mut_ptr(),
        )
    }
    answer
}

/// The node capacities that are tried.
pub const BOOST: [usize; 4] = [4, 8, 16, 32];
pub const SPATIALINDEX: [usize; 3] = [8, 16, 32];

/// An R-tree of one of the libraries, with its windows.
pub struct Peer {
    pub name: &'static str,
    pub capacity: usize,
    tree: *mut c_void,
    query: Query,
    free: Free,
}

impl Peer {
    /// Each library at each of its node capacities.
    pub fn all(kinds: &[Kind], boxes: &[f64], windows: &[f64]) -> Vec<Peer> {
        Peer::some(kinds, boxes, windows, &BOOST, &SPATIALINDEX)
    }

    /// Each library at some node capacities. Boost has the kind's own type, a mix has double.
    pub fn some(kinds: &[Kind], boxes: &[f64], windows: &[f64], boosts: &[usize], spatialindexes: &[usize]) -> Vec<Peer> {
        let d = kinds.len();
        let boost: Make = if kinds.iter().any(|kind| *kind != kinds[0]) {
            boost_make_float64
        } else {
            match kinds[0] {
                Kind::Int32 => boost_make_int32,
                Kind::Int64 => boost_make_int64,
                Kind::Float32 => unreachable!("a dimension that is asked is not float32"),
                Kind::Float64 => boost_make_float64,
                Kind::Uint64 => boost_make_uint64,
            }
        };
        let one = |name, capacity, make: Make, query: Query, free: Free| {
            let tree = unsafe { make(d, capacity, boxes.as_ptr(), boxes.len() / (2 * d), windows.as_ptr(), windows.len() / (2 * d)) };
            assert!(!tree.is_null());
            Peer { name, capacity, tree, query, free }
        };
        let boosts = boosts.iter().map(|capacity| one("boost", *capacity, boost, boost_query, boost_free));
        let others = spatialindexes.iter().map(|capacity| one("libspatialindex", *capacity, spatialindex_make, spatialindex_query, spatialindex_free));
        boosts.chain(others).collect()
    }

    /// Writes the tiles found, in the library's own order; there is room for all.
    pub fn query(&self, window: usize, out: &mut [u32]) -> usize {
        unsafe { (self.query)(self.tree, window, out.as_mut_ptr()) }
    }
}

impl Drop for Peer {
    fn drop(&mut self) {
        unsafe { (self.free)(self.tree) }
    }
}
