//! A tree in parts: every cut, lengths and work buffers around the right ones, and what is kept of the blocks.

#[allow(dead_code)]
mod fixture;

use fixture::Fixture;
use tussockbell::{Description, Kind, Opened, Refused, TreeParts, Which};

const INNER: usize = 24;
const OPENED: Opened = Opened { tiles: 3, fanout: 2, levels: 3 };

fn sample() -> Fixture {
    Fixture::read("sample", vec![Kind::Int32], [1, 32, 1166, 300])
}

/// What these blocks come to.
fn said(sample: &Fixture, blocks: &[&[u8]], stated: u64, work: &mut [u8]) -> Result<Opened, Refused> {
    let mut parts = TreeParts::new(&sample.description(), 1166, &sample.footer, stated, work);
    blocks.iter().for_each(|block| parts.write(block));
    parts.finish()
}

fn tree_refused(number: u64, place: u64) -> Result<Opened, Refused> {
    Err(Refused { number, place, which: Which::Second })
}

#[test]
fn every_cut_is_answered_alike() {
    let sample = sample();
    let tree = &sample.tree[..];
    for first in 0..=80 {
        for second in first..=80 {
            let blocks = [&tree[..first], &[], &tree[first..second], &tree[second..]];
            assert_eq!(said(&sample, &blocks, 80, &mut [0; INNER]), Ok(OPENED));
        }
        let expected = if first == 80 { Ok(OPENED) } else { tree_refused(Refused::BYTES, first as u64) };
        assert_eq!(said(&sample, &tree[..first].chunks(1).collect::<Vec<_>>(), 80, &mut [0; INNER]), expected);
    }
}

#[test]
fn only_the_inner_boxes_are_kept() {
    let sample = sample();
    let mut work = [0xa5; INNER + 9];
    assert_eq!(said(&sample, &[&sample.tree], 80, &mut work), Ok(OPENED));
    assert_eq!(work[..INNER], [&sample.tree[16..24], &sample.tree[32..48]].concat());
    assert_eq!(work[INNER..], [0xa5; 9]);
}

#[test]
fn room_and_lengths_around_the_right_ones() {
    let sample = sample();
    let tree = &sample.tree[..];
    let short = Refused { number: Refused::WORK, place: 0, which: Which::First };
    for room in 0..INNER {
        assert_eq!(said(&sample, &[tree], 80, &mut vec![0; room]), Err(short));
        // the room is asked for as soon as the fanout is there, and not before
        assert_eq!(said(&sample, &[&tree[..4]], 80, &mut vec![0; room]), Err(short));
        assert_eq!(said(&sample, &[&tree[..3]], 80, &mut vec![0; room]), tree_refused(Refused::BYTES, 3));
    }
    for stated in (0..80).chain([81, 88, u64::MAX]) {
        assert_eq!(said(&sample, &[tree], stated, &mut [0; INNER]), tree_refused(Refused::BYTES, stated));
    }
    assert_eq!(said(&sample, &[tree, &[0]], 80, &mut [0; INNER]), tree_refused(Refused::BYTES, 80));
    assert_eq!(said(&sample, &[], 80, &mut []), tree_refused(Refused::BYTES, 0));
}

#[test]
fn a_footer_and_a_description_come_first() {
    let sample = sample();
    let first = |number, place| Err(Refused { number, place, which: Which::First });
    let bad = Description { fields: 0, ..sample.description() };
    let mut parts = TreeParts::new(&bad, 1166, &sample.footer, 7, &mut []);
    parts.write(&sample.tree);
    assert_eq!(parts.finish(), first(Refused::DESCRIPTION, 0));
    let mut parts = TreeParts::new(&sample.description(), 1166, &sample.footer[..11], 7, &mut []);
    parts.write(&sample.tree);
    assert_eq!(parts.finish(), first(Refused::BYTES, 11));
}

#[test]
fn a_wrong_box_is_refused_where_it_starts() {
    let sample = sample();
    let mut bad = sample.tree.clone();
    bad[76] += 1;
    assert_eq!(
        said(&sample, &bad.chunks(5).collect::<Vec<_>>(), 80, &mut [0; INNER]),
        tree_refused(Refused::OUTSIDE_PARENT, 72)
    );
    bad[72] = 26;
    assert_eq!(
        said(&sample, &bad.chunks(5).collect::<Vec<_>>(), 80, &mut [0; INNER]),
        tree_refused(Refused::REVERSED, 72)
    );
}
