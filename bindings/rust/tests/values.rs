//! Mins, maxes, sums and null counts: every kind, every tile, and which of two byte strings a refusal is about.

#[allow(dead_code)]
mod fixture;

use fixture::Fixture;
use tussockbell::{null_counts, tile_ranges, tile_sums, tile_values, var_tile_ranges, var_tile_values};
use tussockbell::{Kind, Range, Refused, Value, Which};

fn numbers(all: &[u64]) -> Vec<u8> {
    all.iter().flat_map(|x| x.to_le_bytes()).collect()
}

/// A body of a fixed kind, whose values are so many bytes each.
fn body(values: &[&[u8]]) -> Vec<u8> {
    [&numbers(&[values.len() as u64])[..], &values.concat(), &[0; 8]].concat()
}

fn first(number: u64, place: u64) -> Refused {
    Refused { number, place, which: Which::First }
}

fn second(number: u64, place: u64) -> Refused {
    Refused { number, place, which: Which::Second }
}

#[test]
fn every_kind() {
    let cases = [
        (
            Kind::Int32,
            [i32::MIN, 7].map(i32::to_le_bytes).map(|x| x.to_vec()),
            [Value::Int32(i32::MIN), Value::Int32(7)],
        ),
        (
            Kind::Int64,
            [i64::MIN, 7].map(i64::to_le_bytes).map(|x| x.to_vec()),
            [Value::Int64(i64::MIN), Value::Int64(7)],
        ),
        (
            Kind::Float32,
            [f32::NEG_INFINITY, 7.0].map(f32::to_le_bytes).map(|x| x.to_vec()),
            [Value::Float32(f32::NEG_INFINITY), Value::Float32(7.0)],
        ),
        (
            Kind::Float64,
            [-0.0, 7.0].map(f64::to_le_bytes).map(|x| x.to_vec()),
            [Value::Float64(-0.0), Value::Float64(7.0)],
        ),
        (
            Kind::Uint64,
            [7, u64::MAX].map(u64::to_le_bytes).map(|x| x.to_vec()),
            [Value::Uint64(7), Value::Uint64(u64::MAX)],
        ),
    ];
    for (kind, [low, high], expected) in cases {
        let (mins, maxes) = (body(&[&low, &high]), body(&[&high, &high]));
        let values = tile_values(kind, 2, &mins).unwrap();
        assert_eq!((values.kind(), values.len(), values.is_empty()), (kind, 2, false));
        assert_eq!(values.iter().collect::<Vec<_>>(), expected);
        assert_eq!((values.get(1), values.get(2), values.get(u32::MAX)), (Some(expected[1]), None, None));
        assert_eq!(format!("{values:?}"), format!("{expected:?}"));
        let ranges = tile_ranges(kind, 2, &mins, &maxes).unwrap();
        assert_eq!(ranges.mins().get(0), Some(expected[0]));
        assert_eq!(ranges.maxes().get(0), Some(expected[1]));
        assert_eq!(ranges.get(1).map(|range| range.kind()), Some(kind));
        let place = 8;
        assert_eq!(tile_ranges(kind, 2, &maxes, &mins).unwrap_err(), second(Refused::REVERSED, place));
        assert_eq!(tile_values(kind, 0, &mins).unwrap_err(), first(Refused::TILES, 0));
        assert_eq!(tile_values(kind, 3, &mins).unwrap_err(), first(Refused::COUNT, 0));
        assert_eq!(tile_ranges(kind, 2, &mins, &maxes[..9]).unwrap_err(), second(Refused::BYTES, 9));
        assert_eq!(tile_ranges(kind, 2, &[], &maxes[..9]).unwrap_err(), first(Refused::BYTES, 0));
    }
}

#[test]
fn a_nan_before_the_order() {
    let float = |all: [f64; 2]| body(&[&all[0].to_le_bytes(), &all[1].to_le_bytes()]);
    let (mins, maxes) = (float([5.0, 1.0]), float([1.0, f64::NAN]));
    assert_eq!(tile_ranges(Kind::Float64, 2, &mins, &maxes).unwrap_err(), second(Refused::NOT_A_NUMBER, 16));
    assert_eq!(tile_ranges(Kind::Float64, 2, &maxes, &mins).unwrap_err(), first(Refused::NOT_A_NUMBER, 16));
    let zeros = tile_ranges(Kind::Float64, 2, &float([0.0, -0.0]), &float([-0.0, 0.0])).map(|ranges| ranges.get(0));
    assert_eq!(zeros, Ok(Some(Range::Float64(0.0, -0.0))));
}

#[test]
fn var_values_are_parts_of_the_body() {
    let data = [&numbers(&[4, 0, 0, 2, 5, 5])[..], b"abcde"].concat();
    let values = var_tile_values(4, &data).unwrap();
    assert_eq!(values.iter().collect::<Vec<_>>(), [&b""[..], b"ab", b"cde", b""]);
    assert_eq!(values.iter().collect::<Vec<_>>().concat(), b"abcde");
    assert_eq!(values.get(2).unwrap().as_ptr(), data[data.len() - 3..].as_ptr());
    assert_eq!(values.get(4), None);
    let empty = numbers(&[4, 0, 0, 0, 0, 0]);
    let [mins, maxes] = var_tile_ranges(4, &data, &empty).unwrap();
    assert_eq!((mins.get(1), maxes.get(1)), (Some(&b"ab"[..]), Some(&b""[..])));
    let falling = [&numbers(&[2, 0, 9, 3])[..], b"abc"].concat();
    assert_eq!(var_tile_values(2, &falling).unwrap_err(), first(Refused::TILE_OFFSETS, 16));
    assert_eq!(var_tile_ranges(2, &numbers(&[2, 0, 0, 0]), &falling).unwrap_err(), second(Refused::TILE_OFFSETS, 16));
    assert_eq!(var_tile_values(1, &numbers(&[1, 0, u64::MAX])).unwrap_err(), first(Refused::BYTES, 24));
}

#[test]
fn sums_are_raw() {
    let data = numbers(&[3, 0, u64::MAX, 0.5f64.to_bits()]);
    let sums = tile_sums(3, &data).unwrap();
    assert_eq!(sums.iter().rev().collect::<Vec<_>>(), [0.5f64.to_bits(), u64::MAX, 0]);
    assert_eq!(tile_sums(2, &data).unwrap_err(), first(Refused::COUNT, 0));
    assert_eq!(tile_sums(3, &data[..31]).unwrap_err(), first(Refused::BYTES, 31));
}

#[test]
fn null_counts_come_with_the_footer() {
    let sample = Fixture::read("sample", vec![Kind::Int32], [1, 32, 1166, 300]);
    let ask = |footer: &[u8], counts: &[u64]| {
        null_counts(&sample.description(), 1166, footer, &numbers(counts))
            .map(|counts| counts.iter().collect::<Vec<_>>())
    };
    assert_eq!(ask(&sample.footer, &[3, 32, 0, 5]), Ok(vec![32, 0, 5]));
    assert_eq!(ask(&sample.footer, &[3, 32, 0, 6]), Err(second(Refused::NULL_COUNT, 24)));
    assert_eq!(ask(&sample.footer, &[3, 33, 0, 6]), Err(second(Refused::NULL_COUNT, 8)));
    assert_eq!(ask(&sample.footer, &[2, 0, 0]), Err(second(Refused::COUNT, 0)));
    assert_eq!(
        ask(&sample.footer[1..], &[2, 0]),
        null_counts(&sample.description(), 1166, &sample.footer[1..], &[]).map(|_| vec![])
    );
    assert_eq!(ask(&sample.footer[..11], &[3, 99, 0, 0]), Err(first(Refused::BYTES, 11)));
}
