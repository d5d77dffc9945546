//! All windows of a batch in one call.

use crate::ffi;
use crate::places::{QUERY_FOUND, QUERY_LOOKED, RECORD_PLACES, RECORD_USED};
use crate::ranges::Window;
use crate::{query, Description, Hit, Kind, Range, Refused, Tree, Which};

/// What a batch answers of one window: its numbers, in the places of the C function's record.
#[derive(Clone, Copy, Debug, Default, PartialEq, Eq)]
#[repr(transparent)]
pub struct Record([u64; RECORD_PLACES]);

impl Record {
    /// The refusal of the window, if it is refused.
    pub fn check(&self) -> Result<(), Refused> {
        Refused::check(&self.0, Which::First)
    }

    /// How many tiles were found, also where not all of them fit; 0 where the window is refused.
    pub fn found(&self) -> u64 {
        self.0[QUERY_FOUND]
    }

    /// How many boxes of the tree were looked at; 0 where the window is refused.
    pub fn looked(&self) -> u64 {
        self.0[QUERY_LOOKED]
    }

    /// How many places of the buffer the window used, after those of the windows before it.
    pub fn used(&self) -> usize {
        self.0[RECORD_USED] as usize
    }
}

/// Which tiles does each window touch, in a tree of `tiles` tiles? Windows as bytes, in one call that copies nothing.
///
/// All windows have the kinds `window_kinds`. Their bytes stand one after the other: for each kind the minimum and the
/// maximum, little-endian. Each window is answered as [`query`] answers it alone with what the earlier ones left of
/// `out`, and has its own record; a refused window uses no place, and the next is still asked.
///
/// Where `windows` has not the bytes of as many windows as there are records, all of it is refused with
/// [`Refused::RUNS`], and neither `records` nor `out` is written. Nothing else refuses the whole batch.
///
/// ```
/// use tussockbell::{query_batch_bytes, Description, Kind, Record, Refused};
///
/// let tree = std::fs::read("../../tests/fixtures/sample/tree")?;
/// let kinds = [Kind::Int32];
/// let description = Description { kinds: &kinds, fields: 1, capacity: 32 };
/// let windows: Vec<u8> = [12i32, 21, 1, 0, 0, 24].iter().flat_map(|end| end.to_le_bytes()).collect();
/// let (mut records, mut out) = ([Record::default(); 3], [77; 6]);
/// query_batch_bytes(&description, 3, &tree, &kinds, &windows, &mut records, &mut out)?;
/// assert_eq!(records.map(|record| record.used()), [2, 0, 3]);
/// assert_eq!(records[1].check().unwrap_err().number, Refused::REVERSED);
/// assert_eq!(out, [1, 2, 0, 1, 2, 77]);
/// # Ok::<(), Box<dyn std::error::Error>>(())
/// ```
pub fn query_batch_bytes(
    description: &Description,
    tiles: u64,
    tree: &[u8],
    window_kinds: &[Kind],
    windows: &[u8],
    records: &mut [Record],
    out: &mut [u32],
) -> Result<(), Refused> {
    let answer = ffi::query_batch(description, tiles, tree, window_kinds, windows, records, out);
    Refused::check(&answer, Which::First)
}

/// Which tiles does each window touch, in a tree of `tiles` tiles? All windows in one call of the library.
///
/// For each window what [`query`] answers or refuses, with what the earlier ones left of `out`. A window of other kinds
/// than the description's, or of more than a description may have, uses no place, and is refused in a call of its own.
///
/// ```
/// use tussockbell::{query_batch, Description, Kind, Range, Refused};
///
/// let tree = std::fs::read("../../tests/fixtures/sample/tree")?;
/// let description = Description { kinds: &[Kind::Int32], fields: 1, capacity: 32 };
/// let windows: [&[Range]; 3] = [&[Range::Int32(12, 21)], &[Range::Int64(12, 21)], &[Range::Int32(4, 4)]];
/// let mut out = [77; 4];
/// let answers = query_batch(&description, 3, &tree, &windows, &mut out);
/// assert_eq!(answers[0].map(|answer| answer.tiles), Ok(&[1, 2][..]));
/// assert_eq!(answers[1].unwrap_err().number, Refused::WINDOW);
/// assert_eq!(answers[2].map(|answer| answer.tiles), Ok(&[0][..]));
/// assert_eq!(out, [1, 2, 0, 77]);
/// # Ok::<(), Box<dyn std::error::Error>>(())
/// ```
pub fn query_batch<'b>(
    description: &Description,
    tiles: u64,
    tree: &[u8],
    windows: &[&[Range]],
    mut out: &'b mut [u32],
) -> Vec<Result<Hit<'b>, Refused>> {
    let made: Vec<Window> = windows.iter().map(|sides| Window::new(sides)).collect();
    let most = Description::MOST_DIMENSIONS as usize;
    let fits = |window: &Window| window.kinds() == description.kinds && window.kinds().len() <= most;
    let bytes: Vec<u8> = made.iter().filter(|window| fits(window)).flat_map(|window| window.ends()).copied().collect();
    let mut records = vec![Record::default(); made.iter().filter(|window| fits(window)).count()];
    let asked = query_batch_bytes(description, tiles, tree, description.kinds, &bytes, &mut records, out);
    let mut records = records.into_iter();
    let mut answer = |window: &Window, sides: &[Range]| {
        if !fits(window) {
            return query(description, tiles, tree, sides, &mut []);
        }
        asked?;
        let record = records.next().expect("a record for each window of the description's kinds");
        record.check()?;
        let (tiles, rest) = std::mem::take(&mut out).split_at_mut(record.used());
        out = rest;
        Ok(Hit { tiles, found: record.found(), looked: record.looked() })
    };
    made.iter().zip(windows).map(|(window, sides)| answer(window, sides)).collect()
}

impl Tree<'_> {
    /// Which tiles does each window touch? As [`query_batch`], on this tree.
    ///
    /// ```
    /// # use tussockbell::{open_tree, Description, Kind, Range};
    /// # let footer = std::fs::read("../../tests/fixtures/sample/footer")?;
    /// # let bytes = std::fs::read("../../tests/fixtures/sample/tree")?;
    /// # let description = Description { kinds: &[Kind::Int32], fields: 1, capacity: 32 };
    /// let tree = open_tree(&description, 1166, &footer, &bytes)?;
    /// let mut out = [0; 4];
    /// let answers = tree.query_batch(&[&[Range::Int32(12, 21)], &[Range::Int32(1, 0)], &[Range::Int32(0, 24)]], &mut out);
    /// assert_eq!(answers[0].unwrap().tiles, [1, 2]);
    /// assert!(answers[1].is_err());
    /// assert_eq!((answers[2].unwrap().tiles, answers[2].unwrap().found), (&[0, 1][..], 3));
    /// # Ok::<(), Box<dyn std::error::Error>>(())
    /// ```
    pub fn query_batch<'b>(&self, windows: &[&[Range]], out: &'b mut [u32]) -> Vec<Result<Hit<'b>, Refused>> {
        query_batch(self.description(), self.tiles(), self.bytes(), windows, out)
    }
}
