//! The tiles of the sample fragment that a window touches, and where their bytes are.
use std::fs;
use tussockbell::{open_tree, read_footer, tile_offsets, Description, Kind, Range};

fn main() -> Result<(), Box<dyn std::error::Error>> {
    let footer = fs::read("tests/fixtures/sample/footer")?;
    let tree = fs::read("tests/fixtures/sample/tree")?;
    let offsets = fs::read("tests/fixtures/sample/offsets")?;

    let description = Description { kinds: &[Kind::Int32], fields: 1, capacity: 32 };
    let tree = open_tree(&description, 1166, &footer, &tree)?;
    let footer = read_footer(&description, 1166, &footer)?;
    let offsets = tile_offsets(tree.tiles(), 300, &offsets)?;

    let mut out = [0; 8];
    let hit = tree.query(&[Range::from(12..=21)], &mut out)?;
    println!("found {} looked {}", hit.found, hit.looked);
    for tile in hit {
        let extent = offsets.get(tile).expect("a tile that is found is one of the tree's");
        println!("tile {tile}: {} bytes at {}, {} cells", extent.length, extent.offset, footer.cells(tile));
    }
    Ok(())
}
