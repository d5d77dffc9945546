//! What has one value for each tile, or lends a run of them, and goes through them in turn.

/// What stands for a tile in a sequence that was accepted. It is no part of the crate's interface.
pub trait AtTile {
    type Item;

    /// The value of a tile. It needs no check: the bytes were accepted, and stay so as long as they are borrowed.
    fn at(&self, tile: u64) -> Self::Item;
}

/// Goes through the tiles of a sequence in turn: what `iter` of [`Offsets`](crate::Offsets),
/// [`TileValues`](crate::TileValues) and the others makes, and a `for` loop over them.
///
/// ```
/// use tussockbell::{tile_offsets, Extent};
///
/// let list = [3u64, 0, 100, 250].map(u64::to_le_bytes).concat();
/// let offsets = tile_offsets(3, 300, &list)?;
/// let mut read = 0;
/// for extent in &offsets {
///     read += extent.length;
/// }
/// assert_eq!(read, 300);
/// assert_eq!(offsets.iter().next_back(), Some(Extent { offset: 250, length: 50 }));
/// # Ok::<(), tussockbell::Refused>(())
/// ```
#[derive(Clone, Debug)]
pub struct TileIter<S> {
    of: S,
    left: std::ops::Range<usize>,
}

impl<S> TileIter<S> {
    pub(crate) fn new(of: S, tiles: usize) -> TileIter<S> {
        TileIter { of, left: 0..tiles }
    }
}

impl<S: AtTile> Iterator for TileIter<S> {
    type Item = S::Item;

    fn next(&mut self) -> Option<S::Item> {
        self.left.next().map(|tile| self.of.at(tile as u64))
    }

    fn nth(&mut self, tiles: usize) -> Option<S::Item> {
        self.left.nth(tiles).map(|tile| self.of.at(tile as u64))
    }

    fn size_hint(&self) -> (usize, Option<usize>) {
        self.left.size_hint()
    }
}

impl<S: AtTile> DoubleEndedIterator for TileIter<S> {
    fn next_back(&mut self) -> Option<S::Item> {
        self.left.next_back().map(|tile| self.of.at(tile as u64))
    }
}

impl<S: AtTile> ExactSizeIterator for TileIter<S> {}

impl<S: AtTile> std::iter::FusedIterator for TileIter<S> {}

/// What a sequence of tiles has: its number of tiles, one of them, and all in turn.
macro_rules! tiles {
    ($name:ident, $item:ty, $what:literal, |$values:ident, $tile:ident| $at:expr) => {
        impl<'a> $name<'a> {
            /// The number of tiles.
            pub fn len(&self) -> usize {
                self.tiles as usize
            }

            /// Whether there are no tiles: never, since such bytes are refused.
            pub fn is_empty(&self) -> bool {
                self.tiles == 0
            }

            #[doc = concat!($what, " of a tile, counted from 0; none past the last tile.")]
            pub fn get(&self, tile: u32) -> Option<$item> {
                (u64::from(tile) < self.tiles).then(|| $crate::tiles::AtTile::at(self, tile.into()))
            }

            /// Those of all tiles in turn.
            pub fn iter(&self) -> $crate::TileIter<$name<'a>> {
                $crate::TileIter::new(*self, self.len())
            }
        }

        impl<'a> $crate::tiles::AtTile for $name<'a> {
            type Item = $item;

            fn at(&self, $tile: u64) -> $item {
                let $values = self;
                $at
            }
        }

        impl<'a> IntoIterator for $name<'a> {
            type Item = $item;
            type IntoIter = $crate::TileIter<$name<'a>>;

            fn into_iter(self) -> Self::IntoIter {
                self.iter()
            }
        }

        impl<'a> IntoIterator for &$name<'a> {
            type Item = $item;
            type IntoIter = $crate::TileIter<$name<'a>>;

            fn into_iter(self) -> Self::IntoIter {
                self.iter()
            }
        }

        impl std::fmt::Debug for $name<'_> {
            fn fmt(&self, f: &mut std::fmt::Formatter<'_>) -> std::fmt::Result {
                f.debug_list().entries(self.iter()).finish()
            }
        }
    };
}

/// An answer that lends a run is gone through as that run is.
macro_rules! lends {
    ($name:ident, $run:ident, $item:ty) => {
        impl<'b> IntoIterator for $name<'b> {
            type Item = $item;
            type IntoIter = std::iter::Copied<std::slice::Iter<'b, $item>>;

            fn into_iter(self) -> Self::IntoIter {
                self.$run.iter().copied()
            }
        }

        impl<'b> IntoIterator for &$name<'b> {
            type Item = $item;
            type IntoIter = std::iter::Copied<std::slice::Iter<'b, $item>>;

            fn into_iter(self) -> Self::IntoIter {
                self.$run.iter().copied()
            }
        }
    };
}

pub(crate) use {lends, tiles};
