//! Logs of queries, replayed against a tree.

use crate::ffi;
use crate::places::REPLAY_LENGTH;
use crate::{Description, Hit, Range, Refused, Tree, Which};
use std::fmt::Write;

/// No line of a [`replay`] is longer: so many bytes for each line of the log are always room enough.
pub const REPLAY_LINE: usize = 113;

/// Asks every query of a log again, of a tree of `tiles` tiles, and writes line by line whether the answer is the
/// logged one to the start of `out`; returns that part of it.
///
/// A line of the log is a record: tab-parted decimal numbers, the minimum and the maximum of each dimension in turn,
/// then the number found and the number looked at. The last line may lack its newline. Each record has one tab-parted
/// line in the text, in order, ended by a newline: its number, from 0; `same` where both numbers agree, else `differs`;
/// the logged pair, and the pair found now. A line that can't be read, is above 255 bytes or holds a query that is
/// refused has its number and `bad`; with a float dimension, or a tree or a description that [`query`](crate::query)
/// refuses, every line is so.
///
/// Only [`Refused::ROOM`] is given: `out` is shorter than the text, and stays as it was. With [`REPLAY_LINE`] bytes a
/// line the queries are asked once, with less once more, to measure the text.
///
/// ```
/// use tussockbell::{replay, Description, Kind, REPLAY_LINE};
///
/// let tree = std::fs::read("../../tests/fixtures/sample/tree")?;
/// let description = Description { kinds: &[Kind::Int32], fields: 1, capacity: 32 };
/// let log = b"12\t21\t2\t6\n5\t9\t1\t5\n9\t5\t0\t0";
/// let mut out = [0; 3 * REPLAY_LINE];
/// let text = replay(&description, 3, &tree, log, &mut out)?;
/// assert_eq!(text, b"0\tsame\t2\t6\t2\t6\n1\tdiffers\t1\t5\t0\t5\n2\tbad\n");
///
/// let refused = replay(&description, 3, &tree, log, &mut [0; 20]).unwrap_err();
/// assert_eq!(refused.to_string(), "refused 26 at 0: the output buffer is too short");
/// # Ok::<(), Box<dyn std::error::Error>>(())
/// ```
#[doc(alias = "replay_into")]
pub fn replay<'b>(
    description: &Description,
    tiles: u64,
    tree: &[u8],
    log: &[u8],
    out: &'b mut [u8],
) -> Result<&'b [u8], Refused> {
    let answer = ffi::replay(description, tiles, tree, log, out);
    Refused::check(&answer, Which::First)?;
    Ok(&out[..answer[REPLAY_LENGTH] as usize])
}

/// The line of a log that says what a query answered, with its newline: [`replay`] reads it. None where a side is of a
/// float kind, since a log has integers alone.
///
/// ```
/// use tussockbell::{log_line, Hit, Range};
///
/// let hit = Hit { tiles: &[1, 2], found: 2, looked: 6 };
/// assert_eq!(log_line(&[Range::Int32(12, 21)], &hit).as_deref(), Some("12\t21\t2\t6\n"));
/// assert_eq!(log_line(&[Range::Float64(0.0, 1.0)], &hit), None);
/// ```
pub fn log_line(window: &[Range], hit: &Hit) -> Option<String> {
    let mut line = String::new();
    for side in window {
        let written = match side {
            Range::Int32(low, high) => write!(line, "{low}\t{high}\t"),
            Range::Int64(low, high) => write!(line, "{low}\t{high}\t"),
            Range::Uint64(low, high) => write!(line, "{low}\t{high}\t"),
            Range::Float32(..) | Range::Float64(..) => return None,
        };
        written.expect("a text takes all that is written to it");
    }
    Some(format!("{line}{}\t{}\n", hit.found, hit.looked))
}

impl Tree<'_> {
    /// Asks every query of a log again. As [`replay`], on this tree.
    pub fn replay<'b>(&self, log: &[u8], out: &'b mut [u8]) -> Result<&'b [u8], Refused> {
        replay(self.description(), self.tiles(), self.bytes(), log, out)
    }
}
