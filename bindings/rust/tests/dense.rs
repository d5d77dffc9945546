//! Dense grids and dense footers through the binding: against the rules of tests/differential on every small grid of
//! some kinds, and what it lends.

// Declared by a macro, so that rustfmt leaves these files as they are.
macro_rules! rules_modules {
    ($($name:ident $path:literal)*) => {
        $(
            #[allow(dead_code, clippy::all)]
            #[path = $path]
            mod $name;
        )*
    };
}

rules_modules! {
    grid "../../../tests/differential/src/grid.rs"
    rules "../../../tests/differential/src/rules.rs"
}

use tussockbell::{read_dense_footer, read_footer, DenseGrid, Description, Kind, Order, Range, Refused, Which};

const BEFORE: u32 = 7_777_777;

/// A range of a kind, whose ends are given from the middle of it.
fn side(kind: Kind, low: i64, high: i64) -> Range {
    let middle = |x: i64| (1u64 << 63).wrapping_add_signed(x);
    match kind {
        Kind::Int32 => Range::Int32(low as i32, high as i32),
        Kind::Int64 => Range::Int64(low, high),
        Kind::Float32 => Range::Float32(low as f32, high as f32),
        Kind::Float64 => Range::Float64(low as f64, high as f64),
        Kind::Uint64 => Range::Uint64(middle(low), middle(high)),
    }
}

fn bytes(sides: &[Range]) -> Vec<u8> {
    let one = |side: &Range| match *side {
        Range::Int32(low, high) => [low, high].map(i32::to_le_bytes).concat(),
        Range::Int64(low, high) => [low, high].map(i64::to_le_bytes).concat(),
        Range::Float32(low, high) => [low, high].map(f32::to_le_bytes).concat(),
        Range::Float64(low, high) => [low, high].map(f64::to_le_bytes).concat(),
        Range::Uint64(low, high) => [low, high].map(u64::to_le_bytes).concat(),
    };
    sides.iter().flat_map(one).collect()
}

/// The binding and the rules agree on a grid and a window, with every room from none to more than is found.
fn agree(kinds: &[Kind], domain: &[Range], extents: &[u64], order: Order, window: &[Range]) -> Result<u64, Refused> {
    let numbers = |sides: &[Range]| sides.iter().map(|side| side.kind() as u8).collect::<Vec<_>>();
    let d = rules::Description { kinds: kinds.iter().map(|kind| *kind as u8).collect(), fields: 1, capacity: 1 };
    let (own, extents_lent) = (numbers(domain), extents.to_vec());
    let given = grid::Grid { d, kinds: own, ends: bytes(domain), extents: extents_lent, order: order as u64 };
    let right = grid::query(&given, &numbers(window), &bytes(window));
    let description = Description { kinds, fields: 1, capacity: 1 };
    let refused = |r: rules::Refused| Refused { number: r.number, place: r.place, which: Which::First };
    let made = DenseGrid::new(&description, domain, extents, order);
    assert_eq!(made.err(), grid::check(&given).err().map(refused));
    let asked = made?;
    for room in 0..right.as_ref().map_or(0, Vec::len) + 2 {
        let mut out = vec![BEFORE; room];
        match (&right, asked.query(window, &mut out)) {
            (Ok(found), Ok(answer)) => {
                let some = &found[..room.min(found.len())];
                assert_eq!((answer.tiles, answer.found), (some, found.len() as u64));
                assert!(out[some.len()..].iter().all(|place| *place == BEFORE));
            }
            (Err(r), Err(told)) => {
                assert_eq!(told, refused(*r));
                assert!(out.iter().all(|place| *place == BEFORE));
            }
            (right, told) => panic!("the rules say {right:?}, the binding {told:?}"),
        }
    }
    assert_eq!(asked.tiles_in(window).ok(), right.as_ref().ok().cloned());
    right.map(|found| found.len() as u64).map_err(refused)
}

#[test]
fn every_window_of_small_grids() {
    let mut found = 0;
    for kinds in [[Kind::Int32, Kind::Uint64], [Kind::Int64, Kind::Int32], [Kind::Uint64, Kind::Int64]] {
        let domain = [side(kinds[0], -3, 2), side(kinds[1], -2, 1)];
        for (extents, order) in
            [[1, 2], [2, 1], [3, 4], [6, 2]].iter().flat_map(|e| [(e, Order::RowMajor), (e, Order::ColumnMajor)])
        {
            for code in 0..9i64.pow(4) {
                let ends = [0, 1, 2, 3].map(|i| code / 9i64.pow(i) % 9 - 5);
                if ends[0] <= ends[1] && ends[2] <= ends[3] && code % 7 == 0 {
                    let window = [side(kinds[0], ends[0], ends[1]), side(kinds[1], ends[2], ends[3])];
                    found += agree(&kinds, &domain, extents, order, &window).unwrap();
                }
            }
        }
    }
    assert!(found > 10_000);
}

#[test]
fn whole_kinds_and_more_dimensions() {
    let full = Range::Int64(i64::MIN, i64::MAX);
    let number = |refused: Refused| (refused.number, refused.place);
    let one = |extent: u64, window: Range| {
        agree(&[Kind::Int64], &[full], &[extent], Order::RowMajor, &[window]).map_err(number)
    };
    assert_eq!(one(1 << 63, Range::Int64(-1, 0)), Ok(2));
    assert_eq!(one(1 << 60, Range::Int64(i64::MAX, i64::MAX)), Ok(1));
    assert_eq!(one(u64::MAX, full), Err((Refused::GRID, 0)));
    assert_eq!(one(0, full), Err((Refused::GRID, 0)));
    assert_eq!(one(1, full), Err((Refused::TILES, 0)));
    assert_eq!(one(1 << 63, Range::Int64(1, 0)), Err((Refused::REVERSED, 0)));
    assert_eq!(one(1 << 63, Range::Uint64(0, 1)), Err((Refused::WINDOW, 0)));
    for order in [Order::RowMajor, Order::ColumnMajor] {
        let kinds = [Kind::Uint64, Kind::Int32, Kind::Int64, Kind::Uint64];
        let domain = kinds.map(|kind| side(kind, -8, 7));
        let window = kinds.map(|kind| side(kind, -3, 4));
        assert_eq!(agree(&kinds, &domain, &[4, 8, 2, 1], order, &window), Ok(3 * 2 * 5 * 8));
        assert_eq!(agree(&kinds, &domain, &[4, 8, 2], order, &window).map_err(number), Err((Refused::GRID, 3)));
        assert_eq!(agree(&kinds, &domain, &[4, 8, 2, 1, 0], order, &window), Ok(3 * 2 * 5 * 8));
        assert_eq!(
            agree(&kinds, &domain[..3], &[4, 8, 2, 1], order, &window).map_err(number),
            Err((Refused::WINDOW, 0))
        );
    }
}

#[test]
fn kinds_that_a_grid_has_not() {
    let number = |refused: Refused| (refused.number, refused.place);
    let ask = |kinds: [Kind; 2]| {
        let domain = kinds.map(|kind| side(kind, 0, 3));
        agree(&kinds, &domain, &[2, 2], Order::RowMajor, &domain).map_err(number)
    };
    assert_eq!(ask([Kind::Int32, Kind::Float64]), Err((Refused::GRID, 1)));
    assert_eq!(ask([Kind::Float64, Kind::Float32]), Err((Refused::RETIRED, 1)));
    assert_eq!(ask([Kind::Int32, Kind::Uint64]), Ok(4));
    let none = Description { kinds: &[], fields: 1, capacity: 1 };
    let refused = Refused { number: Refused::DESCRIPTION, place: 0, which: Which::First };
    assert_eq!(DenseGrid::new(&none, &[], &[], Order::RowMajor).err(), Some(refused));
}

#[test]
fn the_most_tiles() {
    let description = Description { kinds: &[Kind::Int64, Kind::Int32], fields: 1, capacity: 1 };
    let domain = |rows: i64| [Range::Int64(0, rows - 1), Range::Int32(0, 4_095)];
    let grid = DenseGrid::new(&description, &domain(4_096), &[1, 1], Order::ColumnMajor).unwrap();
    assert_eq!(grid.tiles(), Description::MOST_TILES);
    let all = grid.tiles_in(&domain(4_096)).unwrap();
    assert!(all.iter().enumerate().all(|(i, tile)| i == *tile as usize) && all.len() == 1 << 24);
    let refused = DenseGrid::new(&description, &domain(4_097), &[1, 1], Order::ColumnMajor).unwrap_err();
    assert_eq!((refused.number, refused.place), (Refused::TILES, 0));
    assert_eq!(format!("{grid:?}"), "DenseGrid { tiles: 16777216, extents: [1, 1], order: ColumnMajor, .. }");
}

#[test]
fn a_dense_footer_at_every_byte() {
    let mut data = std::fs::read(format!("{}/../../tests/fixtures/dense/footer", env!("CARGO_MANIFEST_DIR"))).unwrap();
    let description = Description { kinds: &[Kind::Int32, Kind::Int64], fields: 1, capacity: 250 };
    let d = rules::Description { kinds: vec![0, 1], fields: 1, capacity: 250 };
    let mut accepted = 0;
    for at in 0..data.len() {
        for change in [0u8, 1, 128, 255] {
            data[at] ^= change;
            let right = grid::footer(&d, 1182, &data);
            match read_dense_footer(&description, 1182, &data) {
                Ok(footer) => {
                    let right = right.expect("the rules refuse it");
                    assert_eq!((footer.dense(), footer.tiles(), footer.last_tile_cells()), (true, 0, right.last_cells));
                    assert_eq!(footer.schema_name(), &data[right.name.0..][..right.name.1]);
                    assert_eq!(footer.schema_name().as_ptr(), data[12..].as_ptr());
                    assert_eq!(
                        [footer.version(), footer.rtree(), footer.length()],
                        [right.numbers[0], right.numbers[8], right.numbers[11]]
                    );
                    assert_eq!(
                        (footer.file_sizes(), footer.null_counts()),
                        (&right.lists[0][..], &right.lists[10][..])
                    );
                    let sides = bytes(footer.domain());
                    assert_eq!(sides, data[right.domain_at..][..sides.len()]);
                    assert_eq!(read_footer(&description, 1182, &data).unwrap_err().number, Refused::DENSE);
                    accepted += 1;
                }
                Err(refused) => {
                    let right = right.err().expect("the rules accept it");
                    assert_eq!(
                        (refused.number, refused.place, refused.which),
                        (right.number, right.place, Which::First)
                    );
                }
            }
            data[at] ^= change;
        }
    }
    assert!(accepted > data.len() && accepted < 4 * data.len());
}
