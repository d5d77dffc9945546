//! What users of Rust expect of such types: texts, Rust's own ranges, and loops; and the names of version 1.0.

#[allow(dead_code)]
mod fixture;

use fixture::Fixture;
use std::collections::HashSet;
use std::ops::RangeInclusive;
use tussockbell::{convert_tree, log_line, null_counts, open_tree, replay, tile_offsets, tile_ranges, tile_sums};
use tussockbell::{
    tile_values, var_tile_ranges, var_tile_values, DenseGrid, Description, Extent, Field, Fragment, Kind,
};
use tussockbell::{Order, Range, Refused, TileIter, TreeParts, Value, Which, WindowError, REPLAY_LINE};

const KINDS: [Kind; 5] = [Kind::Int32, Kind::Int64, Kind::Float32, Kind::Float64, Kind::Uint64];

fn description(kinds: &[Kind]) -> Description<'_> {
    Description { kinds, fields: 1, capacity: 32 }
}

fn sample() -> Fixture {
    Fixture::read("sample", vec![Kind::Int32], [1, 32, 1166, 300])
}

fn numbers(all: &[u64]) -> Vec<u8> {
    all.iter().flat_map(|x| x.to_le_bytes()).collect()
}

#[test]
fn kinds_and_orders_are_read_as_they_are_written() {
    let no_description = Refused { number: Refused::DESCRIPTION, place: 0, which: Which::First };
    for kind in KINDS {
        assert_eq!(kind.to_string(), format!("{kind:?}").to_lowercase());
        assert_eq!(kind.to_string().parse(), Ok(kind));
        assert_eq!(kind.to_string().to_uppercase().parse(), Ok(kind));
        assert_eq!(format!("{kind:>9}|"), format!("{:>9}|", kind.name()));
    }
    for text in ["", "int", "int16", "int32 ", "Int 32", "0", "float"] {
        assert_eq!(text.parse::<Kind>(), Err(no_description), "{text:?}");
    }
    for order in [Order::RowMajor, Order::ColumnMajor] {
        assert_eq!(order.to_string().parse(), Ok(order));
        assert_eq!(Order::try_from(order as u8), Ok(order));
    }
    for text in ["", "row", "Row-major", "row_major", "col-major", "0"] {
        assert_eq!(text.parse::<Order>(), Err(no_description), "{text:?}");
    }
    assert_eq!((2..=u8::MAX).find(|number| Order::try_from(*number) != Err(no_description)), None);
    assert_eq!(Order::default(), Order::RowMajor);
}

/// Ends of every kind, the least and the largest among them, and what makes a range of them.
#[test]
fn ranges_of_every_kind() {
    fn made<T: Copy>(ends: &[T], range: fn(T, T) -> Range)
    where
        Range: From<RangeInclusive<T>> + From<std::ops::RangeFrom<T>> + From<std::ops::RangeToInclusive<T>>,
    {
        let (least, largest) = (ends[0], ends[ends.len() - 1]);
        for &low in ends {
            assert_eq!(Range::from(low..), range(low, largest));
            assert_eq!(Range::from(..=low), range(least, low));
            for &high in ends {
                assert_eq!(Range::from(low..=high), range(low, high));
                let kinds = [range(low, high).kind()];
                let text = range(low, high).to_string();
                assert_eq!(description(&kinds).window(&text).unwrap(), [range(low, high)], "{text}");
            }
        }
    }
    made(&[i32::MIN, -1, 0, i32::MAX], Range::Int32);
    made(&[i64::MIN, -1, 0, i64::MAX], Range::Int64);
    made(&[0, 1, u64::MAX - 1, u64::MAX], Range::Uint64);
    let floats = [f32::NEG_INFINITY, f32::MIN, -0.1, -0.0, 1e-45, 0.1, f32::MAX, f32::INFINITY];
    made(&floats, Range::Float32);
    made(&[f64::NEG_INFINITY, f64::MIN, -0.1, -0.0, 5e-324, 0.1, 1e300, f64::INFINITY], Range::Float64);
    // whole numbers keep a point, so that the kind is seen, and the sign of a zero is kept
    assert_eq!(Range::from(1.0..=2.0).to_string(), "1.0:2.0");
    assert_eq!(Range::from(-0.0..=0.0).to_string(), "-0.0:0.0");
    assert_eq!(Range::from(0..=7).to_string(), "0:7");
    let Range::Float64(low, _) = description(&[Kind::Float64]).window("nan:1").unwrap()[0] else { panic!() };
    assert!(low.is_nan());
}

#[test]
fn windows_from_texts() {
    let d = Description { kinds: &[Kind::Int32, Kind::Float64], fields: 1, capacity: 32 };
    let window = |text: &str| d.window(text);
    assert_eq!(window("0:10,-1.5:2.5"), Ok(vec![Range::Int32(0, 10), Range::Float64(-1.5, 2.5)]));
    assert_eq!(window(" 0 : 10 , 1 : 1e3 "), Ok(vec![Range::Int32(0, 10), Range::Float64(1.0, 1000.0)]));
    assert_eq!(window(":,inf:"), Ok(vec![Range::from(..=i32::MAX), Range::from(f64::INFINITY..)]));
    // a query refuses it, not the text
    assert_eq!(window("10:0,2:1"), Ok(vec![Range::Int32(10, 0), Range::Float64(2.0, 1.0)]));
    for (text, given) in [("", 1), ("0:10", 1), ("0:1,0:1,0:1", 3)] {
        assert_eq!(window(text), Err(WindowError::Sides { given, expected: 2 }));
    }
    for (text, dimension, side) in [
        ("0:10,x:1", 1, "x:1"),
        ("0,1:2", 0, "0"),
        ("0:1:2,1:2", 0, "0:1:2"),
        ("1.0:2,1:2", 0, "1.0:2"),
        ("0:2147483648,1:2", 0, "0:2147483648"),
        ("0:1,", 1, ""),
        ("0:1,1 2:3", 1, "1 2:3"),
    ] {
        let kind = d.kinds[dimension];
        assert_eq!(window(text), Err(WindowError::Side { dimension, kind, text: side.into() }), "{text}");
    }
    assert_eq!(window("0:1").unwrap_err().to_string(), "the window has 1 sides, not 2");
    assert_eq!(window("-:1,0:1").unwrap_err().to_string(), "\"-:1\" is not MINIMUM:MAXIMUM of int32, at dimension 0");
    let sample = sample();
    let tree = sample.open();
    assert_eq!(tree.tiles_in(&sample.description().window("12:21").unwrap()), Ok(vec![1, 2]));
    assert_eq!(tree.tiles_in(&sample.description().window(":").unwrap()), Ok(vec![0, 1, 2]));
    assert_eq!(tree.tiles_in(&[Range::from(20..)]), Ok(vec![2]));
    assert_eq!(tree.tiles_in(&[(0..=4i64).into()]).unwrap_err().number, Refused::WINDOW);
}

#[test]
fn values_are_written_as_ends_are() {
    let values = [Value::Int32(-3), Value::Int64(4), Value::Float32(0.1), Value::Float64(2.0), Value::Uint64(u64::MAX)];
    assert_eq!(values.map(|value| value.to_string()), ["-3", "4", "0.1", "2.0", "18446744073709551615"]);
    assert_eq!(values.map(|value| value.kind()), KINDS);
}

/// All items of a sequence, by a loop over it, over what is lent of it, and from both ends.
fn in_turn<T, S>(sequence: S, iter: TileIter<S>, expected: &[T])
where
    T: PartialEq + std::fmt::Debug,
    S: Copy + IntoIterator<Item = T>,
    for<'s> &'s S: IntoIterator<Item = T>,
    TileIter<S>: DoubleEndedIterator<Item = T> + ExactSizeIterator + Clone,
{
    let mut by_value = vec![];
    for item in sequence {
        by_value.push(item);
    }
    assert_eq!(by_value, expected);
    assert_eq!((&sequence).into_iter().collect::<Vec<T>>(), expected);
    assert_eq!(iter.clone().rev().collect::<Vec<T>>().into_iter().rev().collect::<Vec<T>>(), expected);
    for at in 0..expected.len() + 2 {
        let mut from = iter.clone();
        assert_eq!(from.nth(at).as_ref(), expected.get(at));
        assert_eq!(from.len(), expected.len().saturating_sub(at + 1));
        assert_eq!(from.next().as_ref(), expected.get(at + 1));
    }
    let mut ends = iter;
    assert_eq!((ends.next().as_ref(), ends.next_back().as_ref()), (expected.first(), expected.last()));
    assert_eq!(ends.size_hint(), (expected.len() - 2, Some(expected.len() - 2)));
    assert_eq!(ends.by_ref().count(), expected.len() - 2);
}

#[test]
fn sequences_are_gone_through_in_turn() {
    let list = numbers(&[3, 0, 100, 250]);
    let offsets = tile_offsets(3, 300, &list).unwrap();
    let extents = [(0, 100), (100, 150), (250, 50)].map(|(offset, length)| Extent { offset, length });
    in_turn(offsets, offsets.iter(), &extents);

    let body = |ends: [i32; 3]| [&numbers(&[3])[..], &ends.map(i32::to_le_bytes).concat(), &[0; 8]].concat();
    let (mins, maxes) = (body([-3, 4, 9]), body([0, 4, 12]));
    let values = tile_values(Kind::Int32, 3, &mins).unwrap();
    in_turn(values, values.iter(), &[-3, 4, 9].map(Value::Int32));
    let ranges = tile_ranges(Kind::Int32, 3, &mins, &maxes).unwrap();
    in_turn(ranges, ranges.iter(), &[Range::from(-3..=0), Range::from(4..=4), Range::from(9..=12)]);
    assert_eq!(ranges.kind(), Kind::Int32);

    let var = [&numbers(&[3, 0, 2, 2, 5])[..], b"abcde"].concat();
    let values = var_tile_values(3, &var).unwrap();
    in_turn(values, values.iter(), &[&b"ab"[..], b"", b"cde"]);

    let raw = numbers(&[3, 5, u64::MAX, 2.5f64.to_bits()]);
    let sums = tile_sums(3, &raw).unwrap();
    in_turn(sums, sums.iter(), &[5, u64::MAX, 2.5f64.to_bits()]);
    assert_eq!(sums.signed().collect::<Vec<_>>(), [5, -1, 2.5f64.to_bits() as i64]);
    assert_eq!(sums.real().next_back(), Some(2.5));
    assert_eq!((sums.signed().len(), sums.real().len()), (3, 3));

    let (sample, counts) = (sample(), numbers(&[3, 0, 32, 5]));
    let counts = null_counts(&sample.description(), 1166, &sample.footer, &counts).unwrap();
    in_turn(counts, counts.iter(), &[0, 32, 5]);
}

#[test]
fn answers_are_gone_through_in_turn() {
    let sample = sample();
    let tree = sample.open();
    for (room, tiles) in [(0, &[][..]), (1, &[1]), (4, &[1, 2])] {
        let mut out = vec![77; room];
        let hit = tree.query(&[Range::from(12..=21)], &mut out).unwrap();
        assert_eq!((&hit).into_iter().collect::<Vec<u32>>(), tiles);
        assert_eq!(hit.into_iter().len(), tiles.len());
        // what was lent outlives the answer
        let lent = { tree.query(&[Range::from(12..=21)], &mut out).unwrap().into_iter() };
        assert_eq!(lent.collect::<Vec<u32>>(), tiles);
    }
    let kinds = [Kind::Int32];
    let grid = DenseGrid::new(&description(&kinds), &[Range::from(0..=99)], &[10], Order::default()).unwrap();
    let mut out = [0; 8];
    let hit = grid.query(&[Range::from(15..=31)], &mut out).unwrap();
    assert_eq!(((&hit).into_iter().collect::<Vec<u32>>(), hit.into_iter().next_back()), (vec![1, 2, 3], Some(3)));

    let lent: [(Field, &[u8]); 1] = [(Field::Data(0), &sample.offsets)];
    let fragment = Fragment::open(&sample.description(), 1166, &sample.footer, &sample.tree, &lent).unwrap();
    let whole = fragment.plan(&[&[Range::from(0..=4)], &[Range::from(20..)]], Field::Data(0), 0).unwrap();
    let expected = [(0, 100), (250, 750)].map(|(offset, length)| Extent { offset, length });
    assert_eq!((&whole).into_iter().collect::<Vec<_>>(), expected);
    assert_eq!(whole.into_iter().collect::<Vec<_>>(), expected);
    let (mut work, mut ranges) = ([0; 1], [Extent::default(); 3]);
    let offsets = fragment.offsets(Field::Data(0)).unwrap();
    let plan = offsets.plan(&[2, 0], 0, &mut work, &mut ranges).unwrap();
    assert_eq!((&plan).into_iter().collect::<Vec<_>>(), expected);
    assert_eq!(plan.into_iter().map(|range| range.length).sum::<u64>(), plan.bytes);
}

/// A refusal says which of the two byte strings its place counts in, in each function that takes two.
#[test]
fn refusals_say_what_is_refused() {
    let sample = sample();
    let d = sample.description();
    let text = |refused: Refused| {
        assert_eq!(refused.which, Which::Second);
        assert_eq!(format!("{:?}", refused.which), "Second");
        refused.to_string()
    };
    let tree = "refused 2 at 79 of the tree: byte count or length field wrong";
    let short = &sample.tree[..79];
    assert_eq!(text(open_tree(&d, 1166, &sample.footer, short).unwrap_err()), tree);
    assert_eq!(text(convert_tree(&d, 1166, &sample.footer, short, &mut []).unwrap_err()), tree);
    assert_eq!(text(tussockbell::converted_length(&d, 1166, &sample.footer, short).unwrap_err()), tree);
    let mut work = [0; 24];
    let mut parts = TreeParts::new(&d, 1166, &sample.footer, 79, &mut work);
    parts.write(short);
    assert_eq!(text(parts.finish().unwrap_err()), tree);
    let body = |value: f64| [1u64.to_le_bytes(), value.to_le_bytes(), [0; 8]].concat();
    let nan = tile_ranges(Kind::Float64, 1, &body(1.0), &body(f64::NAN)).unwrap_err();
    assert_eq!(text(nan), "refused 8 at 8 of the maxes: a range end is NaN");
    let var = numbers(&[1, 0, 0]);
    let count = var_tile_ranges(1, &var, &numbers(&[2, 0, 0, 0])).unwrap_err();
    assert_eq!(text(count), "refused 17 at 0 of the maxes: a list's count is not the number of tiles");
    let counts = null_counts(&d, 1166, &sample.footer, &numbers(&[3, 33, 0, 0])).unwrap_err();
    assert_eq!(text(counts), "refused 27 at 8 of the null counts: a null count above its tile's cells");

    let first = |refused: Refused, of: Option<&str>, text: &str| {
        assert_eq!((refused.which, refused.of(), refused.to_string().as_str()), (Which::First, of, text));
        assert_eq!(format!("{:?}", refused.which), "First");
    };
    let footer = "refused 2 at 9 of the footer: byte count or length field wrong";
    let short_footer = &sample.footer[..9];
    first(open_tree(&d, 1166, short_footer, &sample.tree).unwrap_err(), Some("the footer"), footer);
    first(null_counts(&d, 1166, short_footer, &[]).unwrap_err(), Some("the footer"), footer);
    first(TreeParts::new(&d, 1166, short_footer, 80, &mut []).finish().unwrap_err(), Some("the footer"), footer);
    let mins = "refused 2 at 0 of the mins: byte count or length field wrong";
    first(tile_ranges(Kind::Int32, 1, &[], &[]).unwrap_err(), Some("the mins"), mins);
    first(var_tile_ranges(1, &[], &[]).unwrap_err(), Some("the mins"), mins);
    // the footer's own number of tiles is at a place in it, after the domain from 0 to 24
    let tiles = sample.footer.iter().position(|byte| *byte == 24).unwrap() + 4;
    let none = [&sample.footer[..tiles], &[0], &sample.footer[tiles + 1..]].concat();
    let text = format!("refused 10 at {tiles} of the footer: tile number outside the limits");
    first(open_tree(&d, 1166, &none, &sample.tree).unwrap_err(), Some("the footer"), &text);

    // about the bytes of neither, or of one that is lent alone
    let outside = Description { fields: 0, ..d };
    let described = "refused 1 at 0: description outside the limits";
    first(open_tree(&outside, 1166, &sample.footer, &sample.tree).unwrap_err(), None, described);
    let retired = "refused 28 at 0: a dimension of kind float32, which is retired";
    let float32 = Description { kinds: &[Kind::Float32], ..d };
    first(open_tree(&float32, 1166, &sample.footer, &sample.tree).unwrap_err(), None, retired);
    let given = "refused 10 at 0: tile number outside the limits";
    first(tile_ranges(Kind::Int32, 0, &[], &[]).unwrap_err(), None, given);
    let room = "refused 26 at 0: the output buffer is too short";
    first(convert_tree(&d, 1166, &sample.footer, &sample.tree, &mut []).unwrap_err(), None, room);
    let mut parts = TreeParts::new(&d, 1166, &sample.footer, 80, &mut []);
    parts.write(&sample.tree);
    first(parts.finish().unwrap_err(), None, "refused 21 at 0: the work buffer is too short");
    let alone = "refused 2 at 9: byte count or length field wrong";
    first(tussockbell::read_footer(&d, 1166, short_footer).unwrap_err(), None, alone);
    first(tussockbell::convert_footer(&d, 1166, short_footer, &mut []).unwrap_err(), None, alone);

    let made = Refused { number: Refused::BYTES, place: 79, which: Which::Second };
    assert_eq!(made.to_string(), "refused 2 at 79 of the second byte string: byte count or length field wrong");
    let refused = open_tree(&d, 1166, &sample.footer, short).unwrap_err();
    assert_eq!(made, refused);
    assert_eq!(HashSet::from([made, refused, Refused { which: Which::First, ..made }]).len(), 2);
}

#[test]
fn logged_lines_are_replayed_as_the_same() {
    let sample = sample();
    let (tree, mut log, mut out) = (sample.open(), String::new(), [0; 8]);
    for low in -3..28 {
        let window = [Range::from(low..=low + 3)];
        log += &log_line(&window, &tree.query(&window, &mut out).unwrap()).unwrap();
    }
    let mut text = [0; 31 * REPLAY_LINE];
    let said = replay(&sample.description(), 3, &sample.tree, log.as_bytes(), &mut text).unwrap();
    let said = std::str::from_utf8(said).unwrap();
    assert_eq!(said.lines().filter(|line| line.contains("\tsame\t")).count(), 31);
    let hit = tree.query(&[Range::from(..=0)], &mut out).unwrap();
    let window = [Range::Int32(i32::MIN, 0), Range::Int64(i64::MIN, -1), Range::Uint64(0, u64::MAX)];
    let ends = "-2147483648\t0\t-9223372036854775808\t-1\t0\t18446744073709551615";
    assert_eq!(log_line(&window, &hit), Some(format!("{ends}\t{}\t{}\n", hit.found, hit.looked)));
    for float in [Range::Float32(0.0, 1.0), Range::Float64(0.0, 1.0)] {
        assert_eq!(log_line(&[window[0], float], &hit), None);
    }
}

/// Programs that were written for version 1.0 compile, and mean the same.
#[test]
#[allow(deprecated)]
fn the_names_of_version_1_0() {
    use tussockbell::{Answer, DenseAnswer, TileOffsets};
    let sample = sample();
    let mut out = [0; 4];
    let answer: Answer = sample.open().query(&[Range::Int32(12, 21)], &mut out).unwrap();
    assert_eq!(answer, Answer { tiles: &[1, 2], found: 2, looked: 6 });
    let kinds = [Kind::Int32];
    let grid = DenseGrid::new(&description(&kinds), &[Range::Int32(0, 9)], &[5], Order::RowMajor).unwrap();
    assert_eq!(grid.query(&[Range::Int32(7, 7)], &mut [0]), Ok(DenseAnswer { tiles: &[1], found: 1 }));
    let offsets: TileOffsets = tile_offsets(3, 300, &sample.offsets).unwrap();
    assert_eq!(offsets.len(), 3);
    let d = sample.description();
    let footer = tussockbell::read_footer(&d, 1166, &sample.footer).unwrap();
    assert_eq!((footer.last_cells(), footer.last_tile_cells()), (5, 5));
}
