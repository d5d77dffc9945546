//! What the types let a caller say at the edges: empty slices, odd windows, numbers far outside the limits.

mod fixture;

use fixture::Fixture;
use tussockbell::{open_tree, query, query_batch, query_batch_bytes, read_footer, report, tile_offsets, tile_sizes};
use tussockbell::{Description, Extent, Kind, Range, Record, Refused, Which};

const WINDOW: [Range; 1] = [Range::Int32(12, 21)];

fn refusal(number: u64, place: u64) -> Refused {
    Refused { number, place, which: Which::First }
}

/// The sample fragment, whose size numbers are only in its description file.
fn sample() -> Fixture {
    Fixture::read("sample", vec![Kind::Int32], [1, 32, 1166, 300])
}

#[test]
fn a_short_buffer_gets_the_first_tiles_and_the_full_number() {
    let sample = sample();
    for (room, expected) in [(0, vec![]), (1, vec![1]), (2, vec![1, 2]), (5, vec![1, 2, 77, 77, 77])] {
        let mut out = vec![77; room];
        let answer = query(&sample.description(), 3, &sample.tree, &WINDOW, &mut out).unwrap();
        assert_eq!((answer.found, answer.looked), (2, 6));
        assert_eq!(answer.tiles, &expected[..room.min(2)]);
        assert_eq!(out, expected);
    }
}

#[test]
fn a_refused_query_leaves_the_buffer_alone() {
    let sample = sample();
    let tree = open_tree(&sample.description(), 1166, &sample.footer, &sample.tree).unwrap();
    let mut out = [77; 4];
    assert_eq!(tree.query(&[Range::Int32(1, 0)], &mut out), Err(refusal(Refused::REVERSED, 0)));
    assert_eq!(query(&sample.description(), 4, &sample.tree, &WINDOW, &mut out), Err(refusal(Refused::BYTES, 80)));
    assert_eq!(out, [77; 4]);
    assert_eq!(tree.tiles_in(&[]), Err(refusal(Refused::WINDOW, 0)));
}

/// Each window of a batch, with what the earlier ones left of a buffer: 0, 1, 32, 33 and 1,000 windows, of which some are refused, first, in between and
/// last; room for none, for all that is found, one place less, one more, and to the middle of a window.
#[test]
fn a_batch_answers_as_its_windows_alone() {
    let sample = sample();
    let d = sample.description();
    for count in [0, 1, 32, 33, 1000] {
        let ends = |i: i32| if i % 7 == 0 || i == count - 1 { [i, i - 1] } else { [i % 30 - 3, i % 30 + 9] };
        let sides: Vec<[Range; 1]> = (0..count).map(|i| [Range::Int32(ends(i)[0], ends(i)[1])]).collect();
        let windows: Vec<&[Range]> = sides.iter().map(|side| &side[..]).collect();
        let bytes: Vec<u8> = (0..count).flat_map(ends).flat_map(i32::to_le_bytes).collect();
        let mut alone = vec![77; 3 * windows.len()];
        let found =
            |window: &[Range]| query(&d, 3, &sample.tree, window, &mut []).map_or(0, |answer| answer.found as usize);
        let all: usize = windows.iter().map(|window| found(window)).sum();
        for room in [0, 1, all / 2, all.saturating_sub(1), all, all + 1] {
            let (mut out, mut again) = (vec![77; room], vec![77; room]);
            let mut records = vec![Record::default(); windows.len()];
            query_batch_bytes(&d, 3, &sample.tree, d.kinds, &bytes, &mut records, &mut out).unwrap();
            alone[..].fill(77);
            let (mut free, mut rest) = (0, &mut alone[..room.min(3 * count as usize)]);
            let answers = query_batch(&d, 3, &sample.tree, &windows, &mut again);
            for ((window, record), answer) in windows.iter().zip(&records).zip(answers) {
                let single = query(&d, 3, &sample.tree, window, rest);
                assert_eq!(single, answer);
                let (tiles, found, looked) = single.map_or((0, 0, 0), |a| (a.tiles.len(), a.found, a.looked));
                assert_eq!((record.used(), record.found(), record.looked()), (tiles, found, looked));
                assert_eq!(record.check().err(), single.err());
                assert_eq!(out[free..free + tiles], rest[..tiles]);
                free += tiles;
                rest = &mut rest[tiles..];
            }
            assert!(out[free..].iter().all(|place| *place == 77) && free == room.min(all));
            assert_eq!(out, again);
        }
    }
}

#[test]
fn runs_of_unlike_length_write_nothing() {
    let sample = sample();
    let d = sample.description();
    for (bytes, count) in [(0, 1), (8, 0), (8, 2), (16, 1), (7, 1), (9, 1), (15, 2)] {
        let (mut records, mut out) = (vec![Record::default(); count], [77; 4]);
        let bad = Description { fields: 0, ..d };
        for description in [&d, &bad] {
            let refused =
                query_batch_bytes(description, 3, &sample.tree, d.kinds, &vec![0; bytes], &mut records, &mut out);
            assert_eq!(refused, Err(refusal(Refused::RUNS, 0)));
        }
        assert_eq!((records, out), (vec![Record::default(); count], [77; 4]));
    }
    let bad = Description { fields: 0, ..d };
    let answers = query_batch(&bad, 3, &sample.tree, &[&WINDOW, &WINDOW], &mut []);
    assert_eq!(answers, [Err(refusal(Refused::DESCRIPTION, 0)); 2]);
    assert_eq!(query_batch(&bad, 3, &sample.tree, &[], &mut []), []);
}

#[test]
fn empty_slices_are_answered() {
    let sample = sample();
    let d = sample.description();
    assert_eq!(read_footer(&d, 0, &[]).unwrap_err(), refusal(Refused::BYTES, 0));
    assert_eq!(open_tree(&d, 0, &[], &[]).unwrap_err(), refusal(Refused::BYTES, 0));
    let second = Refused { which: Which::Second, ..refusal(Refused::BYTES, 0) };
    assert_eq!(open_tree(&d, 1166, &sample.footer, &[]).unwrap_err(), second);
    assert_eq!(query(&d, 3, &[], &WINDOW, &mut []), Err(refusal(Refused::BYTES, 0)));
    assert_eq!(query(&d, 3, &sample.tree, &[], &mut []), Err(refusal(Refused::WINDOW, 0)));
    assert_eq!(query(&d, 3, &sample.tree, &WINDOW, &mut []).unwrap().found, 2);
    assert_eq!(tile_offsets(1, 1, &[]).unwrap_err(), refusal(Refused::BYTES, 0));
    assert_eq!(tile_sizes(1, &[]), Err(refusal(Refused::BYTES, 0)));
    assert_eq!(report(&[], &[], &[], &[], &mut []), b"refused\t1\t0\n".len());
}

#[test]
fn every_function_refuses_a_description_outside_the_limits() {
    let sample = sample();
    let good = sample.description();
    let bad = [
        Description { kinds: &[], ..good },
        Description { kinds: &[Kind::Int32; 5], ..good },
        Description { kinds: &[Kind::Float64; 300], ..good },
        Description { fields: 0, ..good },
        Description { fields: 65, ..good },
        Description { fields: u64::MAX, ..good },
        Description { capacity: 0, ..good },
        Description { capacity: 1_000_000_001, ..good },
        Description { capacity: u64::MAX, ..good },
    ];
    let (footer, tree) = (&sample.footer, &sample.tree);
    for d in &bad {
        let expected = refusal(Refused::DESCRIPTION, 0);
        assert_eq!(read_footer(d, 1166, footer).unwrap_err(), expected);
        assert_eq!(open_tree(d, 1166, footer, tree).unwrap_err(), expected);
        // before the number of tiles and before the window
        for (tiles, window) in [(3, &WINDOW[..]), (0, &[]), (u64::MAX, &[Range::Int64(0, 0); 9])] {
            assert_eq!(query(d, tiles, tree, window, &mut []), Err(expected));
        }
    }
}

#[test]
fn a_window_of_another_number_of_sides_is_refused_at_0() {
    let mixed = Fixture::named("mixed");
    let tree = mixed.open();
    let domain = read_footer(&mixed.description(), mixed.file_size, &mixed.footer).unwrap().domain().to_vec();
    assert!(tree.query(&domain, &mut []).is_ok());
    for sides in [0, 1, 2, 3, 5, 6, 100] {
        let window: Vec<Range> = domain.iter().copied().cycle().take(sides).collect();
        assert_eq!(tree.query(&window, &mut []), Err(refusal(Refused::WINDOW, 0)));
        let tiles = query(&mixed.description(), 0, &mixed.tree, &window, &mut []);
        assert_eq!(tiles, Err(refusal(Refused::TILES, 0)));
    }
}

#[test]
fn a_bad_side_is_refused_at_its_dimension() {
    let mixed = Fixture::named("mixed");
    let tree = mixed.open();
    let domain = read_footer(&mixed.description(), mixed.file_size, &mixed.footer).unwrap().domain().to_vec();
    let (nan, signalling) = (f64::NAN, f64::from_bits(0xfff0_0000_0000_0001));
    let bad = [
        (0, Range::Int64(0, 0), Refused::WINDOW),
        (0, Range::Int32(i32::MAX, i32::MIN), Refused::REVERSED),
        (1, Range::Float32(0.0, 0.0), Refused::WINDOW),
        (1, Range::Float64(nan, 0.0), Refused::NOT_A_NUMBER),
        (1, Range::Float64(0.0, -nan), Refused::NOT_A_NUMBER),
        (1, Range::Float64(signalling, nan), Refused::NOT_A_NUMBER),
        (1, Range::Float64(1.0, 0.5), Refused::REVERSED),
        (1, Range::Float64(f64::INFINITY, f64::NEG_INFINITY), Refused::REVERSED),
        (2, Range::Int64(i64::MAX, i64::MIN), Refused::REVERSED),
        (3, Range::Int64(0, 0), Refused::WINDOW),
        (3, Range::Uint64(u64::MAX, 0), Refused::REVERSED),
    ];
    for (at, side, number) in bad {
        let mut window = domain.clone();
        window[at] = side;
        assert_eq!(tree.query(&window, &mut []), Err(refusal(number, at as u64)), "{side:?}");
    }
}

#[test]
fn a_stored_infinity_is_refused_and_a_window_may_be_open() {
    let floats = Fixture::named("float32");
    let d = floats.description();
    let tiles = floats.open().tiles();
    let open = [Range::Float64(f64::NEG_INFINITY, f64::INFINITY)];
    let domain = 14 + u64::from_le_bytes(floats.footer[4..12].try_into().unwrap()) as usize;
    for (low, high, number) in [
        (f64::NEG_INFINITY, f64::INFINITY, Refused::INFINITE),
        (f64::INFINITY, f64::NEG_INFINITY, Refused::INFINITE),
        (f64::NEG_INFINITY, f64::NAN, Refused::NOT_A_NUMBER),
    ] {
        let ends = [low.to_le_bytes(), high.to_le_bytes()].concat();
        let mut footer = floats.footer.clone();
        footer[domain..domain + 16].copy_from_slice(&ends);
        assert_eq!(read_footer(&d, floats.file_size, &footer).unwrap_err(), refusal(number, domain as u64));
        let mut root = floats.tree.clone();
        root[16..32].copy_from_slice(&ends);
        let second = Refused { which: Which::Second, ..refusal(number, 16) };
        assert_eq!(open_tree(&d, floats.file_size, &floats.footer, &root).unwrap_err(), second);
        // asked as it is, the tree is walked: a root with a NaN meets nothing
        let found = if high.is_nan() { 0 } else { tiles };
        assert_eq!(query(&d, tiles, &root, &open, &mut []).unwrap().found, found);
    }
}

#[test]
fn the_widest_window_finds_every_tile() {
    let mixed = Fixture::named("mixed");
    let widest = [
        Range::Int32(i32::MIN, i32::MAX),
        Range::Float64(f64::NEG_INFINITY, f64::INFINITY),
        Range::Int64(i64::MIN, i64::MAX),
        Range::Uint64(0, u64::MAX),
    ];
    let tree = mixed.open();
    assert!(tree.tiles_in(&widest).unwrap().into_iter().eq(0..tree.tiles() as u32));
    assert!(widest.iter().map(Range::kind).eq(mixed.kinds.iter().copied()));
}

#[test]
fn both_zeros_are_one_end() {
    let mut tree = [2u32, 1, 1, 0].map(u32::to_le_bytes).concat();
    tree.extend([-0.0f64, 0.0].map(f64::to_le_bytes).concat());
    let description = Description { kinds: &[Kind::Float64], fields: 1, capacity: 1 };
    for (low, high) in [(0.0, 0.0), (-0.0, -0.0), (0.0, -0.0), (-0.0, 0.0)] {
        let answer = query(&description, 1, &tree, &[Range::Float64(low, high)], &mut []).unwrap();
        assert_eq!((answer.found, answer.looked), (1, 1));
    }
}

#[test]
fn uint64_is_ordered_without_a_sign() {
    let (half, most) = (1u64 << 63, u64::MAX);
    let leaves = [[0, 4], [half - 1, half], [most - 1, most]];
    let levels = [vec![[0, most]], vec![[0, half], [most - 1, most]], leaves.to_vec()];
    let mut tree = [2u32, 3].map(u32::to_le_bytes).concat();
    for level in &levels {
        tree.extend((level.len() as u64).to_le_bytes());
        tree.extend(level.iter().flatten().flat_map(|end| end.to_le_bytes()));
    }
    let description = Description { kinds: &[Kind::Uint64], fields: 1, capacity: 32 };
    let ask = |side: Range| query(&description, 3, &tree, &[side], &mut []).map(|answer| (answer.found, answer.looked));
    assert_eq!(ask(Range::Uint64(0, most)), Ok((3, 6)));
    assert_eq!(ask(Range::Uint64(half - 1, half)), Ok((1, 5)));
    assert_eq!(ask(Range::Uint64(half + 1, most - 2)), Ok((0, 3)));
    assert_eq!(ask(Range::Uint64(most, most)), Ok((1, 4)));
    assert_eq!(ask(Range::Uint64(half, half - 1)), Err(refusal(Refused::REVERSED, 0)));
    assert_eq!(ask(Range::Int64(0, 1)), Err(refusal(Refused::WINDOW, 0)));
    // an int64 dimension, and a window of uint64
    let signed = Description { kinds: &[Kind::Int64], ..description };
    assert_eq!(query(&signed, 3, &tree, &[Range::Uint64(0, 1)], &mut []), Err(refusal(Refused::WINDOW, 0)));
}

#[test]
fn numbers_go_up_to_the_largest() {
    let sample = sample();
    let d = sample.description();
    let most = u64::MAX;
    assert_eq!(read_footer(&d, most, &sample.footer).unwrap().tiles(), 3);
    assert_eq!(read_footer(&d, most, &sample.footer).unwrap().cells(u32::MAX), 0);
    assert_eq!(query(&d, most, &sample.tree, &WINDOW, &mut []), Err(refusal(Refused::TILES, 0)));
    assert_eq!(tile_offsets(most, 300, &sample.offsets).unwrap_err(), refusal(Refused::TILES, 0));
    assert_eq!(tile_sizes(most, &sample.offsets), Err(refusal(Refused::TILES, 0)));
    let offsets = tile_offsets(3, most, &sample.offsets).unwrap();
    assert_eq!(offsets.get(2), Some(Extent { offset: 250, length: most - 250 }));
    assert_eq!(offsets.get(u32::MAX), None);
    assert_eq!(offsets.iter().next_back(), offsets.get(2));
    let sizes = |last: u64| [3, most - 1, 0, last].map(u64::to_le_bytes).concat();
    assert_eq!(tile_sizes(3, &sizes(1)), Ok(most));
    assert_eq!(tile_sizes(3, &sizes(2)), Err(refusal(Refused::SUM, 24)));
}

#[test]
fn a_refusal_is_an_error_that_says_what_is_wrong() {
    let sample = sample();
    let window = [Range::Int32(2, 1)];
    let error: Box<dyn std::error::Error> =
        query(&sample.description(), 3, &sample.tree, &window, &mut []).unwrap_err().into();
    assert_eq!(error.to_string(), "refused 9 at 0: minimum above maximum");
    let refused = open_tree(&sample.description(), 1166, &sample.footer, &[0; 8]).unwrap_err();
    assert_eq!(refused.to_string(), "refused 13 at 0 of the tree: fanout outside the limits");
}

#[test]
fn what_debug_shows_is_short_and_named() {
    let sample = sample();
    let shown = format!("{:?}", read_footer(&sample.description(), 1166, &sample.footer).unwrap());
    assert!(shown.contains("tiles: 3, last_tile_cells: 5, timestamps: false, deletes: true, rtree: 7,"), "{shown}");
    assert!(shown.contains("domain: [Int32(0, 24)]"), "{shown}");
    let tree = open_tree(&sample.description(), 1166, &sample.footer, &sample.tree).unwrap();
    assert_eq!(format!("{tree:?}"), "Tree { tiles: 3, fanout: 2, levels: 3, .. }");
    let offsets = tile_offsets(3, 300, &sample.offsets).unwrap();
    assert!(format!("{offsets:?}").starts_with("[Extent { offset: 0, length: 100 }, "));
}

#[test]
fn every_fixture_is_answered_as_worked_out() {
    let names = [
        "float32",
        "float64",
        "full_rows",
        "mixed",
        "one_tile",
        "short_last_row",
        "three_short_rows",
        "uint64",
        "wide_fanout",
    ];
    for name in names {
        let fixture = Fixture::named(name);
        let tree = fixture.open();
        let offsets = tile_offsets(tree.tiles(), fixture.size, &fixture.offsets).unwrap();
        let lengths: u64 = offsets.iter().map(|extent| extent.length).sum();
        assert_eq!((offsets.len() as u64, lengths), (tree.tiles(), fixture.size), "{name}");
        for asked in fixture.answers() {
            let mut out = vec![0; tree.tiles() as usize];
            let answer = tree.query(&asked.window, &mut out).unwrap();
            assert_eq!((answer.tiles, answer.looked), (&asked.tiles[..], asked.looked), "{name} {:?}", asked.window);
        }
    }
}
