//! Writing R-trees from their leaves.

use crate::ffi;
use crate::places::WRITE_LENGTH;
use crate::{Description, Refused, Which};

/// How many bytes a tree of so many tiles with this fanout has: the room that [`write_tree`] asks for.
///
/// ```
/// use tussockbell::{tree_length, Description, Kind, Refused};
///
/// let description = Description { kinds: &[Kind::Int32], fields: 1, capacity: 32 };
/// assert_eq!(tree_length(&description, 3, 2)?, 80);
/// assert_eq!(tree_length(&description, 3, 1).unwrap_err().number, Refused::FANOUT);
/// # Ok::<(), Refused>(())
/// ```
pub fn tree_length(description: &Description, tiles: u64, fanout: u64) -> Result<u64, Refused> {
    let answer = ffi::tree_length(description, tiles, fanout);
    Refused::check(&answer, Which::First)?;
    Ok(answer[WRITE_LENGTH])
}

/// Writes the whole R-tree body of so many leaf boxes to the start of `out`, and returns that part of it.
///
/// A leaf box is the minimum and the maximum of each dimension, little-endian, of that dimension's kind; the leaves
/// stand one after the other. Each box above them is the least box around its row of children, at most `fanout` of
/// them; between equal ends, as 0.0 and -0.0 are, it has the bytes of the first child. The rest of `out` stays as it
/// was, and all of it where the call is refused; [`Refused::ROOM`] says that all else is well and `out` is too short.
/// [`open_tree`](crate::open_tree) accepts the body with every footer of this description and this number of tiles
/// whose domain holds the first box.
///
/// ```
/// use tussockbell::{query, tree_length, write_tree, Description, Kind, Range, Refused};
///
/// let description = Description { kinds: &[Kind::Int32], fields: 1, capacity: 32 };
/// let leaves: Vec<u8> = [0i32, 4, 10, 14, 20, 24].iter().flat_map(|end| end.to_le_bytes()).collect();
/// let mut out = vec![0; tree_length(&description, 3, 2)? as usize];
/// let tree = write_tree(&description, 3, 2, &leaves, &mut out)?;
/// assert_eq!(tree, std::fs::read("../../tests/fixtures/sample/tree")?);
/// assert_eq!(query(&description, 3, tree, &[Range::Int32(12, 21)], &mut [0; 8])?.tiles, [1, 2]);
///
/// let refused = write_tree(&description, 3, 2, &leaves, &mut [0; 79]).unwrap_err();
/// assert_eq!(refused.to_string(), "refused 26 at 0: the output buffer is too short");
/// # Ok::<(), Box<dyn std::error::Error>>(())
/// ```
#[doc(alias = "write_tree_into")]
pub fn write_tree<'b>(
    description: &Description,
    tiles: u64,
    fanout: u64,
    leaves: &[u8],
    out: &'b mut [u8],
) -> Result<&'b [u8], Refused> {
    let answer = ffi::write_tree(description, tiles, fanout, leaves, out);
    Refused::check(&answer, Which::First)?;
    Ok(&out[..answer[WRITE_LENGTH] as usize])
}
