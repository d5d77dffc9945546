//! Where the numbers of an answer are: the header's names without `TUSSOCKBELL_`, and its numbers.

macro_rules! places {
    ($($name:ident = $place:literal;)*) => {
        $(pub const $name: usize = $place;)*

        /// Every name with its number, for the comparison with the header, which takes in this file.
        #[cfg(test)]
        #[allow(dead_code)]
        pub const ALL: &[(&str, usize)] = &[$((stringify!($name), $place)),*];
    };
}

places! {
    NUMBER = 0;
    PLACE = 1;
    FOOTER_VERSION = 2;
    FOOTER_NAME_SIZE = 3;
    FOOTER_DENSE = 4;
    FOOTER_NULL_DOMAIN = 5;
    FOOTER_TILES = 6;
    FOOTER_LAST_CELLS = 7;
    FOOTER_TIMESTAMPS = 8;
    FOOTER_DELETES = 9;
    FOOTER_RTREE = 10;
    FOOTER_FRAGMENT = 11;
    FOOTER_CONDITIONS = 12;
    FOOTER_LENGTH = 13;
    FOOTER_DOMAIN = 14;
    DOMAIN_LOW = 1;
    DOMAIN_HIGH = 2;
    DOMAIN_PLACES = 3;
    FOOTER_FILE_SIZES = 26;
    FOOTER_FILE_VAR_SIZES = 90;
    FOOTER_FILE_VALIDITY_SIZES = 154;
    FOOTER_TILE_OFFSETS = 218;
    FOOTER_VAR_OFFSETS = 282;
    FOOTER_VAR_SIZES = 346;
    FOOTER_VALIDITY = 410;
    FOOTER_MINS = 474;
    FOOTER_MAXES = 538;
    FOOTER_SUMS = 602;
    FOOTER_NULL_COUNTS = 666;
    FOOTER_PLACES = 730;
    NAME_START = 0;
    NAME_LENGTH = 1;
    NAME_PLACES = 2;
    OPEN_WHICH = 2;
    OPEN_TILES = 3;
    OPEN_FANOUT = 4;
    OPEN_LEVELS = 5;
    OPEN_PLACES = 6;
    PARTS_PLACES = 40;
    QUERY_FOUND = 2;
    QUERY_LOOKED = 3;
    QUERY_PLACES = 4;
    BATCH_PLACES = 3;
    RECORD_USED = 4;
    RECORD_PLACES = 5;
    BOX_TEST_MEETS = 2;
    BOX_TEST_READ = 3;
    BOX_TEST_PLACES = 4;
    OFFSETS_TILES = 2;
    OFFSETS_PLACES = 3;
    EXTENT_OFFSET = 0;
    EXTENT_LENGTH = 1;
    EXTENT_PLACES = 2;
    SIZES_SUM = 2;
    SIZES_PLACES = 3;
    VALUES_TILES = 2;
    VALUES_PLACES = 3;
    RANGES_WHICH = 2;
    RANGES_TILES = 3;
    RANGES_PLACES = 4;
    VAR_VALUE_START = 0;
    VAR_VALUE_LENGTH = 1;
    VAR_VALUE_PLACES = 2;
    NULL_COUNTS_WHICH = 2;
    NULL_COUNTS_TILES = 3;
    NULL_COUNTS_PLACES = 4;
    WRITE_LENGTH = 2;
    WRITE_PLACES = 3;
    CONVERT_WHICH = 2;
    CONVERT_LENGTH = 3;
    CONVERT_PLACES = 4;
    COMMITTED_FOUND = 2;
    COMMITTED_PLACES = 3;
    REPLAY_LENGTH = 2;
    REPLAY_PLACES = 3;
    DENSE_CHECK_PLACES = 2;
    DENSE_FOUND = 2;
    DENSE_PLACES = 3;
    PLAN_RANGES = 2;
    PLAN_TILES = 3;
    PLAN_OUTSIDE = 4;
    PLAN_BYTES = 5;
    PLAN_PLACES = 6;
}
