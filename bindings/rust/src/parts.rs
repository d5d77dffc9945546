//! A tree that arrives in blocks.

use crate::ffi::{self, Asked};
use crate::places::{OPEN_FANOUT, OPEN_LEVELS, OPEN_TILES, OPEN_WHICH, PARTS_PLACES};
use crate::refused::FOOTER_AND_TREE;
use crate::{Description, Refused};
use std::fmt;

/// What an accepted tree answers that arrived in parts.
#[derive(Clone, Copy, Debug, PartialEq, Eq)]
pub struct Opened {
    /// The number of tiles.
    pub tiles: u64,
    /// The fanout.
    pub fanout: u64,
    /// The number of levels.
    pub levels: u64,
}

/// A tree that arrives in blocks, checked while it does.
///
/// The answer depends on the bytes alone, not on how they were cut: that of [`open_tree`](crate::open_tree) where they
/// add up to the stated length. No block is kept: to ask windows of the tree, keep its bytes, and open them once all of
/// them are there.
///
/// The boxes above the leaf level go to the lent work buffer. One with fewer bytes than they take is refused with
/// [`Refused::WORK`].
///
/// ```
/// use tussockbell::{Description, Kind, TreeParts};
///
/// let footer = std::fs::read("../../tests/fixtures/sample/footer")?;
/// let bytes = std::fs::read("../../tests/fixtures/sample/tree")?;
/// let description = Description { kinds: &[Kind::Int32], fields: 1, capacity: 32 };
/// let mut work = [0; 24];
/// let mut parts = TreeParts::new(&description, 1166, &footer, bytes.len() as u64, &mut work);
/// for block in bytes.chunks(7) {
///     parts.write(block);
/// }
/// assert_eq!(parts.finish()?.levels, 3);
/// # Ok::<(), Box<dyn std::error::Error>>(())
/// ```
pub struct TreeParts<'w> {
    state: [u64; PARTS_PLACES],
    work: &'w mut [u8],
}

impl<'w> TreeParts<'w> {
    /// Takes the footer and the stated length of the tree.
    pub fn new(description: &Description, file_size: u64, footer: &[u8], stated: u64, work: &'w mut [u8]) -> Self {
        let asked = Asked { description: *description, file_size, footer };
        TreeParts { state: ffi::parts_start(asked, stated), work }
    }

    /// Takes one block, of any length.
    pub fn write(&mut self, block: &[u8]) {
        ffi::parts_block(&mut self.state, self.work, block);
    }

    /// What all blocks came to.
    pub fn finish(self) -> Result<Opened, Refused> {
        let answer = ffi::parts_finish(&self.state, self.work);
        Refused::check_two(&answer, OPEN_WHICH, FOOTER_AND_TREE)?;
        Ok(Opened { tiles: answer[OPEN_TILES], fanout: answer[OPEN_FANOUT], levels: answer[OPEN_LEVELS] })
    }
}

impl fmt::Debug for TreeParts<'_> {
    fn fmt(&self, f: &mut fmt::Formatter<'_>) -> fmt::Result {
        f.debug_struct("TreeParts").field("work", &self.work.len()).finish_non_exhaustive()
    }
}
