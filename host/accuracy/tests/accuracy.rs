//! How far lossy floats come back, by hand and as docs/LOSSY.md says it.

use accuracy::argument::bound;
use accuracy::draw::Class;
use accuracy::ends::ends;
use accuracy::error::{Slot, dimension, exponent, lowest};
use accuracy::model::{self, errors};
use accuracy::report::{above, above_row, argument_row, by_range, class_row, range_row};
use accuracy::run::{K, LONG, Measured, measure};
use accuracy::sizes::{size_row, sizes};
use accuracy::{ALL_PLANES, DIMENSIONS, power_of_two};
use random::{Random, rounds};
use std::fs;
use testing::repository;
use windlassow::{Params, Refusal};

fn page() -> String {
    fs::read_to_string(repository().join("docs/LOSSY.md")).expect("the page is there")
}

/// The numbers of the rows under a header of the page, their first `skipped` cells left out.
fn figures(page: &str, header: &str, skipped: usize) -> Vec<Vec<f64>> {
    let (_, below) = page.split_once(header).unwrap_or_else(|| panic!("the page has no header {header}"));
    let rows = below.lines().skip(2).take_while(|line| line.starts_with('|'));
    let number = |cell: &str| cell.trim().parse().expect("a number stands in each cell");
    rows.map(|row| row.trim_matches('|').split('|').skip(skipped).map(number).collect()).collect()
}

fn not_above(found: &[f64], stated: &[f64], what: &str) {
    assert_eq!(found.len(), stated.len(), "{what}");
    for (found, stated) in found.iter().zip(stated) {
        assert!(found <= stated, "{what}: an error of {found}, and docs/LOSSY.md states {stated}");
    }
}

/// The short run draws a part of the blocks of the page's run, the long one all of them.
#[test]
fn no_error_is_above_those_of_the_page() {
    let page = page();
    let scale = rounds(1);
    let measured: Vec<Measured> = DIMENSIONS.map(|d| measure(d, scale)).into();
    let by_size = figures(&page, "| dimension d | blocks | 1 / 2^(2d + 2) |", 2);
    let by_k = figures(&page, "| dimension d | k = 33 |", 1);
    for (found, (by_size, by_k)) in measured.iter().zip(by_size.iter().zip(&by_k)) {
        not_above(&by_range(found), by_size, &format!("dimension {}, k up to 32", found.d));
        not_above(&above(found), by_k, &format!("dimension {}, k above 32", found.d));
    }
    if scale == LONG {
        let rows = measured.iter().flat_map(|found| [range_row(found), above_row(found)]);
        let classes = Class::ALL.iter().map(|&class| class_row(class, &measured));
        for row in rows.chain(classes) {
            assert!(page.contains(&row), "docs/LOSSY.md has not the row {row}");
        }
    }
}

#[test]
fn the_page_has_the_sizes_and_the_bounds() {
    let page = page();
    for d in DIMENSIONS {
        for row in [size_row(&sizes(d).unwrap()), argument_row(d)] {
            assert!(page.contains(&row), "docs/LOSSY.md has not the row {row}");
        }
    }
}

/// The largest q with 1.5 x 2^q not above a tolerance.
#[test]
fn the_page_has_the_tolerances() {
    let page = page();
    let q = |tolerance: f64| {
        let params = Params::lossy_floats_within(dimension(1), tolerance).unwrap();
        (-300..=300).find(|&q| params == Params::lossy_floats(dimension(1), 32, 146).with_lowest(q)).unwrap()
    };
    for tolerance in [0.5, 0.1, 0.05, 0.01] {
        let q = q(tolerance);
        let most = 1.5 * power_of_two(q);
        assert!(most <= tolerance && tolerance < 2.0 * most);
        let row = format!("| {tolerance} | {q} | {most} | {:04x} |", q + 300);
        assert!(page.contains(&row), "docs/LOSSY.md has not the row {row}");
    }
    assert_eq!(Params::lossy_floats_within(dimension(1), 0.0), Err(Refusal::InvalidLowest));
}

fn back(q: i32, planes: u32, values: [f32; 4]) -> [f32; 4] {
    let mut slot = Slot::new(1);
    let words = slot.back(&values.map(f32::to_bits), q, planes);
    [0, 1, 2, 3].map(|place| f32::from_bits(words[place]))
}

/// Two planes, of weights -2^31 and 2^30. 1.9 is 0.95 x 2^30, so the coefficients are 0.475 x 2^30, 0, 0.475 x 2^30 and 0. Of
/// the first and the third a one is left in plane 30. Their sum is 2^31, which is -2^31 as a word: -4.
#[test]
fn small_values_wrap_around() {
    assert_eq!(back(3, 2, [0.0, 1.9, 1.9, 0.0]), [0.0, -4.0, -4.0, 0.0]);
}

/// Three planes, the lowest of weight -2^29. In units of 2^30 the coefficients are -0.67, 0.12, -0.17 and -0.17, of which -1,
/// 0, -0.5 and -0.5 are left. The second value is then -2.125, which is 1.875 as a word.
#[test]
fn an_error_of_nearly_one_and_a_half() {
    let values = [-0.2775, -0.9925, -0.6875, -0.7225];
    assert_eq!(back(1, 3, values), [-0.375, 1.875, -0.875, -0.625]);
    let degrees = values.map(|value: f32| value / 64.0);
    assert_eq!(back(-5, 3, degrees), [-0.375, 1.875, -0.875, -0.625].map(|value: f32| value / 64.0));
}

/// The values are integers, so one unit is 1. 28 planes leave -10 of the coefficient 134217846 out, -7 of 33554457, -10 of
/// 134217814 and -10 of 201326726: the second value is read as 536871332. binary32 has steps of 64 there, and the next one
/// is nearer than the value stored.
#[test]
fn a_step_of_binary32() {
    assert_eq!(back(6, 28, [37.0, 536871296.0, 25.0, 28.0]), [44.0, 536871360.0, 28.0, 20.0]);
}

/// A block whose values are all below 2^(q - 2(d + 1)) is a single 0 and reads as zeros. With one plane, of weight -2^31, the
/// first coefficient is left out if it is above -2^31 / 3, and else -2^31 is left of it.
#[test]
fn the_smallest_blocks_are_zeros() {
    assert_eq!(back(4, 0, [0.999, -0.999, 0.5, -0.1]), [0.0; 4]);
    assert_eq!(back(4, 1, [-1.0; 4]), [0.0; 4]);
    assert_eq!(back(4, 1, [-1.9; 4]), [-4.0; 4]);
}

/// What is argued, held against blocks: the bound before the rounding, one times 2^q after it where m is at least q, three
/// times 2^m below.
#[test]
fn the_argument_holds() {
    for d in DIMENSIONS {
        let mut random = Random::new(u64::from(d));
        let mut slot = Slot::new(d);
        for k in *K.start()..=ALL_PLANES {
            for class in Class::ALL {
                for _ in 0..rounds([40, 10, 2, 1][d as usize - 1]) {
                    argued(&mut slot, d, k, &class.draw(&mut random, d, k));
                }
            }
        }
    }
}

fn argued(slot: &mut Slot, d: u32, k: i32, words: &[u32]) {
    let (m, q) = (exponent(words), lowest(d, words, k));
    let model::Errors { before, after, .. } = errors(d, words, k);
    assert_eq!(slot.back(words, q, k.max(0) as u32), model::back(d, words, k));
    if k >= 2 * (d as i32 + 1) {
        assert!(before < bound(d, k), "{before} before the rounding, dimension {d}, k = {k}, {words:x?}");
        assert!(after <= 1.0, "{after}, dimension {d}, k = {k}, {words:x?}");
    } else if k > 0 {
        assert!(after < 3.0 * power_of_two(m - q), "{after}, dimension {d}, k = {k}, {words:x?}");
    } else {
        assert!(after < power_of_two(m - q), "{after}, dimension {d}, k = {k}, {words:x?}");
    }
}

/// An infinity comes back only of blocks with a magnitude of 2^126 or more, and if what is read does not wrap around, of
/// 2^127 or more.
#[test]
fn infinities_come_from_the_largest_values_alone() {
    let small = |d: u32| (1, 2 * d as i32 + 1);
    let rest = |d: u32| (2 * d as i32 + 2, ALL_PLANES);
    let infinite = [126, 127, 128].map(|m| [ends(m, small, rounds(20)), ends(m, rest, rounds(2))]);
    let found = infinite.map(|pair| pair.map(|ends| ends.infinite > 0));
    assert_eq!(found, [[false, false], [true, false], [true, true]]);
}
