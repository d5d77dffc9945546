//! Fragments from before float32 was retired: refused by every reader and writer, and converted.

#[allow(dead_code)]
mod fixture;

use fixture::Fixture;
use tussockbell::{box_test, null_counts, query_batch_bytes, read_footer, replay, tree_length, write_tree, TreeParts};
use tussockbell::{convert_footer, convert_tree, converted_length, open_tree, query, Description, Kind, Range};
use tussockbell::{Record, Refused, Which};

const FILLER: u8 = 0xa5;

fn refusal(number: u64, place: u64) -> Refused {
    Refused { number, place, which: Which::First }
}

#[test]
fn every_reader_and_writer_refuses_float32_at_its_dimension() {
    let old = Fixture::named("float32/old");
    for (kinds, window_bytes, place) in [
        (&[Kind::Float32][..], 8, 0),
        (&[Kind::Float64, Kind::Float32], 24, 1),
        (&[Kind::Int32, Kind::Uint64, Kind::Float32, Kind::Float32], 40, 2),
    ] {
        let (d, retired) = (Description { kinds, fields: 1, capacity: 100 }, refusal(Refused::RETIRED, place));
        let (size, footer, tree) = (old.file_size, &old.footer[..], &old.tree[..]);
        assert_eq!(read_footer(&d, size, footer).unwrap_err(), retired);
        assert_eq!(open_tree(&d, size, footer, tree).unwrap_err(), retired);
        assert_eq!(query(&d, 0, tree, &[], &mut []).unwrap_err(), retired);
        assert_eq!(box_test(&d, &[], &[]).unwrap_err(), retired);
        assert_eq!(tree_length(&d, 0, 0).unwrap_err(), retired);
        assert_eq!(write_tree(&d, 0, 0, &[], &mut []).unwrap_err(), retired);
        assert_eq!(null_counts(&d, size, footer, &[]).unwrap_err(), retired);
        let mut work = [];
        assert_eq!(TreeParts::new(&d, size, footer, 0, &mut work).finish().unwrap_err(), retired);
        let mut records = [Record::default(); 2];
        query_batch_bytes(&d, 3, tree, kinds, &vec![0; 2 * window_bytes], &mut records, &mut []).unwrap();
        assert!(records.iter().all(|record| record.check() == Err(retired)));
        let mut text = [FILLER; 12];
        assert_eq!(replay(&d, 3, tree, b"1\t2\t0\t0\n", &mut text).unwrap(), b"0\tbad\n");
        // outside the limits it is 1 before that
        let outside = Description { fields: 0, ..d };
        assert_eq!(read_footer(&outside, size, footer).unwrap_err(), refusal(Refused::DESCRIPTION, 0));
    }
}

#[test]
fn the_old_fixture_becomes_the_new_one() {
    let (old, new) = (Fixture::named("float32/old"), Fixture::named("float32"));
    let d = old.description();
    let length = converted_length(&d, old.file_size, &old.footer, &old.tree).unwrap() as usize;
    assert_eq!(length, new.tree.len());
    let mut out = vec![FILLER; length + 3];
    assert_eq!(convert_tree(&d, old.file_size, &old.footer, &old.tree, &mut out).unwrap(), new.tree);
    assert_eq!(out[length..], [FILLER; 3]);
    let mut room = vec![FILLER; new.footer.len() + 3];
    let made = convert_footer(&d, old.file_size, &old.footer, &mut room).unwrap();
    assert_eq!((made.footer, made.file_size), (&new.footer[..], Some(new.file_size)));
    assert_eq!(room[new.footer.len()..], [FILLER; 3]);
    let mut kinds = vec![Kind::Int32];
    assert_eq!(d.widened(&mut kinds), new.description());
    let opened = open_tree(&d.widened(&mut kinds), new.file_size, &new.footer, &out[..length]).unwrap();
    for asked in old.answers() {
        let window: Vec<Range> = asked.window.iter().map(|side| side.widened()).collect();
        let mut tiles = vec![0; opened.tiles() as usize];
        let answer = opened.query(&window, &mut tiles).unwrap();
        assert_eq!((answer.tiles, answer.looked), (&asked.tiles[..], asked.looked));
    }
}

#[test]
fn room_faults_and_sizes() {
    let old = Fixture::named("float32/old");
    let d = old.description();
    let length = converted_length(&d, old.file_size, &old.footer, &old.tree).unwrap() as usize;
    for room in [0, 1, length - 1] {
        let mut out = vec![FILLER; room];
        assert_eq!(convert_tree(&d, old.file_size, &old.footer, &old.tree, &mut out), Err(refusal(Refused::ROOM, 0)));
        assert!(out.iter().all(|byte| *byte == FILLER));
    }
    let mut out = vec![FILLER; old.footer.len() + 7];
    assert_eq!(convert_footer(&d, old.file_size, &old.footer, &mut out), Err(refusal(Refused::ROOM, 0)));
    assert!(out.iter().all(|byte| *byte == FILLER));
    // a fault of the tree says the second, and comes before the room
    let mut tree = old.tree.clone();
    tree[16..20].copy_from_slice(&f32::NAN.to_le_bytes());
    let second = Refused { which: Which::Second, ..refusal(Refused::NOT_A_NUMBER, 16) };
    assert_eq!(convert_tree(&d, old.file_size, &old.footer, &tree, &mut []), Err(second));
    assert_eq!(converted_length(&d, old.file_size, &old.footer, &tree), Err(second));
    // a file so large that there is no larger one
    let mut out = vec![FILLER; old.footer.len() + 8];
    assert_eq!(convert_footer(&d, u64::MAX - 8, &old.footer, &mut out).unwrap().file_size, Some(u64::MAX));
    assert_eq!(convert_footer(&d, u64::MAX - 7, &old.footer, &mut out).unwrap().file_size, None);
}

#[test]
fn without_float32_it_is_a_copy() {
    let mixed = Fixture::named("mixed");
    let mut out = vec![FILLER; mixed.tree.len()];
    let d = mixed.description();
    assert_eq!(convert_tree(&d, mixed.file_size, &mixed.footer, &mixed.tree, &mut out).unwrap(), mixed.tree);
    let mut out = vec![FILLER; mixed.footer.len()];
    let made = convert_footer(&d, mixed.file_size, &mixed.footer, &mut out).unwrap();
    assert_eq!((made.footer, made.file_size), (&mixed.footer[..], Some(mixed.file_size)));
    let mut kinds = vec![];
    assert_eq!(d.widened(&mut kinds), d);
}

/// The box from 0.1 to 0.2 as float32, and the window from 0.05 to 0.1: it is met once the window's ends are rounded as
/// the old query rounded them, and missed where they are not.
#[test]
fn a_window_is_rounded_before_it_is_widened() {
    let mut tree = [2u32, 1, 1, 0].map(u32::to_le_bytes).concat();
    tree.extend([f64::from(0.1f32), f64::from(0.2f32)].map(f64::to_le_bytes).concat());
    let d = Description { kinds: &[Kind::Float64], fields: 1, capacity: 1 };
    let found = |side: Range| query(&d, 1, &tree, &[side], &mut []).unwrap().found;
    assert_eq!(found(Range::Float32(0.05, 0.1).widened()), 1);
    assert_eq!(found(Range::Float64(0.05, 0.1)), 0);
}

#[test]
fn the_ends_of_float32_widen_exactly() {
    for end in [0.0, -0.0, f32::from_bits(1), f32::from_bits(0x7f_ffff), f32::MIN_POSITIVE, f32::MAX, f32::INFINITY] {
        for end in [end, -end] {
            let Range::Float64(low, high) = Range::Float32(end, end).widened() else { panic!("no float64") };
            assert_eq!((low.to_bits(), high.to_bits()), (f64::from(end).to_bits(), f64::from(end).to_bits()));
            assert_eq!((low as f32).to_bits(), end.to_bits());
        }
    }
    assert_eq!(Range::Uint64(1, 2).widened(), Range::Uint64(1, 2));
    assert_eq!(Kind::Float32.widened(), Kind::Float64);
    assert_eq!(Kind::Int64.widened(), Kind::Int64);
}
