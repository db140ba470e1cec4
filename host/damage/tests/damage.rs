//! That damage is not detected, by hand and as the pages say it.

use damage::{floats, integers, rows, shown};
use std::fs;
use testing::repository;
use windlassow::{Block, read_block, slots, store_block};

fn page(name: &str) -> String {
    fs::read_to_string(repository().join(name)).expect("the page is there")
}

/// The code of four times 1.0 begins 1 0 and then has e = 128, lowest bit first. With the lowest bit of e set it is the
/// code of four times 2.0. Both have 3 planes.
#[test]
fn one_bit_makes_another_block() {
    let mut archive = [0; 19];
    store_block(floats(), &mut archive, 0, &[1.0f32; 4]).unwrap();
    archive[0] ^= 1 << 2;
    assert_eq!(read_block(floats(), &archive, 0), Ok(Block { values: [2.0f32; 4], planes: 3 }));
}

#[test]
fn lost_slots_read_as_zeros() {
    let blocks: Vec<_> = slots::<f32, 4>(floats(), &[0; 19]).unwrap().collect();
    assert_eq!(blocks, [Ok(Block { values: [0.0; 4], planes: 0 })]);
    let blocks: Vec<_> = slots::<i32, 4>(integers(), &[0; 17]).unwrap().collect();
    assert_eq!(blocks, [Ok(Block { values: [0; 4], planes: 1 })]);
}

/// A slot or stream that is another is refused or reads as something else: no two have one block or run.
#[test]
fn the_pages_say_what_is_counted() {
    let trust = page("docs/TRUST.md");
    let rows = rows();
    for row in &rows {
        assert_eq!(row.tally.refused + row.tally.other, row.tally.damaged, "{}", row.damage);
        assert!(trust.contains(&shown(row)), "docs/TRUST.md has not the row {}", shown(row));
    }
    let first = rows[0].tally;
    let sentence = format!(
        "Of {} damaged slots {} were refused and {} were read as other readings",
        first.damaged, first.refused, first.other
    );
    assert!(page("README.md").contains(&sentence), "README.md does not say: {sentence}");
    let header = format!("Of {} damaged slots of exact readings {}\n", first.damaged, first.refused);
    assert!(page("include/windlassow.h").contains(&header), "the header does not say: {header}");
}
