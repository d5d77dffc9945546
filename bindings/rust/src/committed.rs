//! Only committed fragments: which folders of a listing count.

use crate::ffi;
use crate::places::COMMITTED_FOUND;
use crate::{Refused, Which};

/// What a listing answers. [`committed`] makes it.
#[derive(Clone, Copy, Debug, PartialEq, Eq)]
pub struct Committed<'a, 'b> {
    listing: &'a [u8],
    /// The numbers of the lines whose folders count and are no later than the reading time, counted from 0, in the
    /// order of the listing; the first ones where there was less room.
    pub lines: &'b [u32],
    /// How many there are in all.
    pub found: u64,
}

impl<'a, 'b> Committed<'a, 'b> {
    /// The names of the folders at `lines`, as parts of the listing.
    pub fn names(&self) -> impl Iterator<Item = &'a str> + 'b
    where
        'a: 'b,
    {
        let mut wanted = self.lines.iter().peekable();
        let lines = self.listing.split(|byte| *byte == b'\n').enumerate();
        lines.filter_map(move |(number, line)| {
            wanted.next_if(|line| **line as usize == number)?;
            let name = line.split(|byte| *byte == b'\t').nth(1)?;
            std::str::from_utf8(name).ok()
        })
    }
}

/// Which folders of a listing are committed, and no later than a reading time?
///
/// A listing has one record a line: a kind, which is `folder`, `wrt`, `con` or `ign`, a tab, and a name,
/// `__t1_t2_uuid_v`. A folder counts if a wrt names it, or a con names it and no ign does; those whose t2 is at most
/// `time` are found. The first places of `out` hold the numbers of their lines, as many as fit, and the rest of it
/// stays as it was, all of it where the listing is refused. A refusal's place is a line, counted from 0.
///
/// ```
/// use tussockbell::{committed, Refused};
///
/// let listing = b"folder\t__1_2_ab_21\nfolder\t__3_4_cd_21\nwrt\t__3_4_cd_21\n";
/// let mut out = [0; 8];
/// let answer = committed(listing, 10, &mut out)?;
/// assert_eq!((answer.lines, answer.found), (&[1][..], 1));
/// assert_eq!(answer.names().collect::<Vec<_>>(), ["__3_4_cd_21"]);
/// assert_eq!(committed(listing, 3, &mut out)?.found, 0);
///
/// let refused = committed(b"wrt\t__1_2_ab_21\nwrt\t__1_2_ab_21", 10, &mut out).unwrap_err();
/// assert_eq!(refused.to_string(), "refused 25 at 1: a record repeated whole");
/// # Ok::<(), Refused>(())
/// ```
pub fn committed<'a, 'b>(listing: &'a [u8], time: u64, out: &'b mut [u32]) -> Result<Committed<'a, 'b>, Refused> {
    let answer = ffi::committed(listing, time, out);
    Refused::check(&answer, Which::First)?;
    let found = answer[COMMITTED_FOUND];
    let room = found.min(out.len() as u64) as usize;
    Ok(Committed { listing, lines: &out[..room], found })
}
