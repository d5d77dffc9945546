"""Between which numbers does the library answer? The least and the most of each, both inside, by the names that C and Rust have.

    LEAST_DIMENSIONS, MOST_DIMENSIONS    dimensions of a description
    LEAST_FIELDS, MOST_FIELDS            entries in each per-field list of a footer
    LEAST_CAPACITY, MOST_CAPACITY        cells of a full tile
    LEAST_VERSION, MOST_VERSION          a footer's format version
    LEAST_NAME, MOST_NAME                bytes of the schema name
    LEAST_TILES, MOST_TILES              tiles of a fragment, or of a dense grid
    LEAST_FANOUT, MOST_FANOUT            a tree's fanout
"""

LEAST_DIMENSIONS, MOST_DIMENSIONS = 1, 4
LEAST_FIELDS, MOST_FIELDS = 1, 64
LEAST_CAPACITY, MOST_CAPACITY = 1, 1_000_000_000
LEAST_VERSION, MOST_VERSION = 16, 21
LEAST_NAME, MOST_NAME = 1, 255
LEAST_TILES, MOST_TILES = 1, 16_777_216
LEAST_FANOUT, MOST_FANOUT = 2, 1_024
