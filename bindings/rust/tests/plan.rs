//! Read plans through the binding, on every run of small lists, byte by byte; and fragments.

#[allow(dead_code)]
mod fixture;

use fixture::Fixture;
use tussockbell::{read_plan, tile_offsets, var_read_plan, var_tile_offsets, work_bytes};
use tussockbell::{Extent, Field, Fragment, FragmentError, Kind, Offsets, Plan, Range, Refused, Which};

const BEFORE: Extent = Extent { offset: 77, length: 77 };

fn list(starts: &[u64]) -> Vec<u8> {
    [&[starts.len() as u64], starts].concat().iter().flat_map(|x| x.to_le_bytes()).collect()
}

/// What is read, byte by byte: that of the tiles, and gaps between two of them.
fn by_bytes(offsets: &Offsets, size: usize, run: &[u32], gap: usize) -> Vec<Extent> {
    let mut read = vec![false; size];
    for extent in run.iter().filter_map(|tile| offsets.get(*tile)) {
        read[extent.offset as usize..][..extent.length as usize].fill(true);
    }
    let own: Vec<usize> = (0..size).filter(|at| read[*at]).collect();
    for pair in own.windows(2).filter(|pair| pair[1] - pair[0] <= gap + 1) {
        read[pair[0]..pair[1]].fill(true);
    }
    let length = |at: usize| read[at..].iter().take_while(|byte| **byte).count() as u64;
    let starts = (0..size).filter(|at| read[*at] && (*at == 0 || !read[*at - 1]));
    starts.map(|at| Extent { offset: at as u64, length: length(at) }).collect()
}

/// All that a plan says, with every room from none to more than is needed.
fn agree(offsets: &Offsets, right: &[Extent], run: &[u32], plan: impl Fn(&mut [Extent]) -> Result<(), Refused>) {
    for room in 0..right.len() + 2 {
        let mut out = vec![BEFORE; room];
        plan(&mut out).unwrap();
        let fits = room.min(right.len());
        assert_eq!(out[..fits], right[..fits], "{offsets:?} {run:?}");
        assert!(out[fits..].iter().all(|place| *place == BEFORE));
    }
}

/// The numbers of a plan.
fn told(plan: &Plan) -> [u64; 4] {
    [plan.found, plan.tiles, plan.outside, plan.bytes]
}

#[test]
fn every_run_of_small_lists() {
    let lists: [(bool, [u64; 4], u64); 4] =
        [(false, [0, 2, 3, 6], 7), (true, [0, 2, 2, 5], 5), (true, [0, 0, 0, 1], 3), (true, [0; 4], 0)];
    for (var, starts, size) in lists {
        let bytes = list(&starts);
        let offsets = if var { var_tile_offsets(4, size, &bytes) } else { tile_offsets(4, size, &bytes) }.unwrap();
        for code in 0..6u32.pow(3) {
            // a digit of 5 stands for no entry
            let run: Vec<u32> = (0..3).map(|i| code / 6u32.pow(i) % 6).filter(|tile| *tile < 5).collect();
            for gap in 0..5 {
                let right = by_bytes(&offsets, size as usize, &run, gap as usize);
                let mut named: Vec<u32> = run.iter().copied().filter(|tile| *tile < 4).collect();
                let outside = run.len() - named.len();
                named.sort();
                named.dedup();
                let bytes_read = right.iter().map(|range| range.length).sum();
                let numbers = [right.len() as u64, named.len() as u64, outside as u64, bytes_read];
                let check = if var { var_read_plan } else { read_plan };
                agree(&offsets, &right, &run, |out| {
                    assert_eq!(told(&check(4, size, &bytes, gap, &run, &mut [9; 1], out)?), numbers);
                    Ok(())
                });
                agree(&offsets, &right, &run, |out| {
                    assert_eq!(told(&offsets.plan(&run, gap, &mut [9; 3], out)?), numbers);
                    Ok(())
                });
            }
        }
    }
}

#[test]
fn refusals_in_their_order() {
    let bytes = list(&[0, 10, 20]);
    let first = |number, place| Err(Refused { number, place, which: Which::First });
    let mut out = [BEFORE; 2];
    let ask = |tiles, size, bytes: &[u8], work: &mut [u8], out: &mut [Extent]| {
        read_plan(tiles, size, bytes, 0, &[0], work, out).map(|plan| plan.found)
    };
    assert_eq!(ask(0, 30, &bytes, &mut [], &mut out), first(Refused::TILES, 0));
    assert_eq!(ask(3, 30, &bytes[..31], &mut [], &mut out), first(Refused::BYTES, 31));
    assert_eq!(ask(2, 30, &bytes, &mut [], &mut out), first(Refused::COUNT, 0));
    assert_eq!(ask(3, 20, &bytes, &mut [], &mut out), first(Refused::TILE_OFFSETS, 24));
    assert_eq!(ask(3, 30, &bytes, &mut [], &mut out), first(Refused::WORK, 0));
    assert_eq!(out, [BEFORE; 2]);
    assert_eq!(ask(3, 30, &bytes, &mut [0], &mut out), Ok(1));
    assert_eq!(var_read_plan(3, 20, &bytes, 0, &[2], &mut [0], &mut out).unwrap().ranges, []);
    let refused = tile_offsets(3, 30, &bytes).unwrap().plan(&[0], 0, &mut [], &mut out).unwrap_err();
    assert_eq!(refused.number, Refused::WORK);
    assert_eq!([0, 1, 8, 9, 1 << 24].map(work_bytes), [0, 1, 1, 2, 1 << 21]);
}

#[test]
fn many_tiles_in_one_call() {
    let bytes = list(&[0, 10, 15]);
    let offsets = tile_offsets(3, 30, &bytes).unwrap();
    for room in 0..5 {
        let mut out = vec![BEFORE; room];
        offsets.extents(&[2, u32::MAX, 0, 1], &mut out);
        let right = [(15, 15), (0, 0), (0, 10), (10, 5)].map(|(offset, length)| Extent { offset, length });
        assert_eq!(out[..room.min(4)], right[..room.min(4)]);
        assert!(out[room.min(4)..].iter().all(|place| *place == BEFORE));
    }
}

/// A fragment's bytes: those of a fixture, whose footer says what the sizes of the data files are.
fn fixture() -> (Fixture, Vec<u8>) {
    let sample = Fixture::read("sample", vec![Kind::Int32], [1, 32, 1166, 300]);
    let offsets = sample.offsets.clone();
    (sample, offsets)
}

#[test]
fn a_fragment_is_its_parts() {
    let (sample, offsets) = fixture();
    let d = sample.description();
    let lent: [(Field, &[u8]); 2] = [(Field::Data(0), &offsets), (Field::Var(0), &offsets)];
    let fragment = Fragment::open(&d, 1166, &sample.footer, &sample.tree, &lent).unwrap();
    assert_eq!(format!("{fragment:?}"), "Fragment { tiles: 3, offsets: [Data(0), Var(0)], .. }");
    assert_eq!(fragment.offsets(Field::Data(0)).unwrap().get(2), Some(Extent { offset: 250, length: 750 }));
    assert_eq!(fragment.offsets(Field::Var(0)).unwrap().get(2), Some(Extent { offset: 250, length: 1750 }));
    assert!(fragment.offsets(Field::Validity(0)).is_none());
    let (mut first, mut second) = ([0; 4], [0; 4]);
    let window = [Range::Int32(12, 21)];
    assert_eq!(fragment.query(&window, &mut first), fragment.tree().query(&window, &mut second));
    let windows: [&[Range]; 2] = [&window, &[Range::Int32(1, 0)]];
    assert_eq!(fragment.query_batch(&windows, &mut first), fragment.tree().query_batch(&windows, &mut second));
    assert_eq!(fragment.footer().total_cells(), 69);

    let turned = Fragment::open(&d, 1166, &sample.footer, &sample.tree, &[lent[1], lent[0]]).unwrap();
    assert_eq!(fragment, turned);
    assert_ne!(fragment, Fragment::open(&d, 1166, &sample.footer, &sample.tree, &lent[..1]).unwrap());
    assert_ne!(fragment, Fragment::open(&d, 1167, &sample.footer, &sample.tree, &lent).unwrap());
    let other = list(&[0, 100, 251]);
    let unlike = [lent[0], (Field::Var(0), &other[..])];
    assert_ne!(fragment, Fragment::open(&d, 1166, &sample.footer, &sample.tree, &unlike).unwrap());
}

#[test]
fn what_a_fragment_is_not_opened_from() {
    let (sample, offsets) = fixture();
    let d = sample.description();
    let open = |footer, tree, offsets: &[(Field, &[u8])]| Fragment::open(&d, 1166, footer, tree, offsets).map(|_| ());
    let refused = |number, place, which| Err(FragmentError::Refused(Refused { number, place, which }));
    let [footer, tree] = [&sample.footer[..], &sample.tree[..]].map(|bytes| bytes.to_vec());
    assert_eq!(open(&footer[..11], &tree, &[]), refused(Refused::BYTES, 11, Which::First));
    assert_eq!(open(&footer, &tree[..79], &[]), refused(Refused::BYTES, 79, Which::Second));
    assert_eq!(open(&footer, &tree, &[(Field::Data(0), &offsets[..31])]), refused(Refused::BYTES, 31, Which::First));
    let falling = list(&[0, 5, 4]);
    assert_eq!(open(&footer, &tree, &[(Field::Var(0), &falling)]), refused(Refused::TILE_OFFSETS, 24, Which::First));
    for field in [Field::Data(1), Field::Var(1), Field::Validity(usize::MAX)] {
        assert_eq!(open(&footer, &tree, &[(field, &offsets)]), Err(FragmentError::NoField(field)));
    }
}

#[test]
fn plans_of_windows() {
    let (sample, offsets) = fixture();
    let d = sample.description();
    let fragment = Fragment::open(&d, 1166, &sample.footer, &sample.tree, &[(Field::Data(0), &offsets)]).unwrap();
    let plan = |windows: &[&[Range]], gap| fragment.plan(windows, Field::Data(0), gap);
    let ranges = |windows: &[&[Range]], gap| {
        plan(windows, gap).unwrap().ranges.iter().map(|x| (x.offset, x.length)).collect::<Vec<_>>()
    };
    let (start, end, between) = ([Range::Int32(0, 4)], [Range::Int32(20, 24)], [Range::Int32(5, 9)]);
    assert_eq!(ranges(&[&end, &start, &end], 0), [(0, 100), (250, 750)]);
    assert_eq!(ranges(&[&end, &start], 149), [(0, 100), (250, 750)]);
    assert_eq!(ranges(&[&end, &start], 150), [(0, 1000)]);
    assert_eq!(ranges(&[&between], 0), []);
    assert_eq!(ranges(&[], u64::MAX), []);
    let many = vec![&[Range::Int32(0, 24)][..]; 3_000];
    assert_eq!(plan(&many, 0).map(|plan| (plan.ranges.len(), plan.tiles, plan.bytes)), Ok((1, 3, 1000)));
    let reversed = [Range::Int32(1, 0)];
    let refused = Refused { number: Refused::REVERSED, place: 0, which: Which::First };
    assert_eq!(plan(&[&start, &reversed, &[]], 0), Err(FragmentError::Refused(refused)));
    assert_eq!(fragment.plan(&[&start], Field::Var(0), 0), Err(FragmentError::NoField(Field::Var(0))));
    let texts = [FragmentError::Refused(refused), FragmentError::NoField(Field::Var(0)), FragmentError::Outside(2)];
    assert_eq!(
        texts.map(|error| error.to_string()),
        [
            "refused 9 at 0: minimum above maximum",
            "no offsets of the field Var(0)",
            "2 of the tiles that were found have no offsets",
        ]
    );
}

/// A fragment may be asked from several threads.
#[test]
fn from_threads() {
    let (sample, offsets) = fixture();
    let d = sample.description();
    let fragment = Fragment::open(&d, 1166, &sample.footer, &sample.tree, &[(Field::Data(0), &offsets)]).unwrap();
    let ask = |low| fragment.plan(&[&[Range::Int32(low, low + 5)]], Field::Data(0), 0).unwrap();
    let alone: Vec<_> = (0..20).map(ask).collect();
    let ask = &ask;
    let together = std::thread::scope(|scope| {
        let threads: Vec<_> = (0..20).map(|low| scope.spawn(move || ask(low))).collect();
        threads.into_iter().map(|thread| thread.join().unwrap()).collect::<Vec<_>>()
    });
    assert_eq!(together, alone);
}
