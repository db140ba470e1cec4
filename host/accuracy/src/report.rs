//! The tables of docs/LOSSY.md.

use crate::argument::bound;
use crate::draw::Class;
use crate::run::{Cell, K, Measured};
use crate::{ALL_PLANES, error};
use std::ops::RangeInclusive;
use testing::grouped;

/// The ranges of k that the first table keeps apart. In the last two m is at least q; in the last one the steps of binary32
/// can be so large that they matter. Below them what is read can wrap around.
pub fn ranges(d: u32) -> [RangeInclusive<i32>; 6] {
    let least = least_sound(d);
    let coarse = least + 20;
    [
        *K.start()..=0,
        1..=least - 3,
        least - 2..=least - 2,
        least - 1..=least - 1,
        least..=coarse - 1,
        coarse..=ALL_PLANES,
    ]
}

/// The k at which m is q.
fn least_sound(d: u32) -> i32 {
    2 * (d as i32 + 1)
}

/// The k at which 32 planes are not enough.
pub const ABOVE: RangeInclusive<i32> = ALL_PLANES + 1..=*K.end();

/// An error with four digits, rounded up: no error is above what is shown.
pub fn shown(error: f64) -> String {
    format!("{:.4}", (error * 10_000.0).ceil() / 10_000.0)
}

fn row(cells: impl IntoIterator<Item = String>) -> String {
    let cells: Vec<String> = cells.into_iter().collect();
    format!("| {} |", cells.join(" | "))
}

/// The largest errors of a dimension by ranges of k, up to 32.
pub fn by_range(measured: &Measured) -> Vec<f64> {
    let worst = |range| measured.worst(|cell| RangeInclusive::contains(&range, &cell.k)).error;
    ranges(measured.d).into_iter().map(worst).collect()
}

/// The largest errors of a dimension at each k above 32.
pub fn above(measured: &Measured) -> Vec<f64> {
    ABOVE.map(|k| measured.worst(|cell| cell.k == k).error).collect()
}

/// A row of the first table.
pub fn range_row(measured: &Measured) -> String {
    let first = [measured.d.to_string(), grouped(measured.blocks())];
    row(first.into_iter().chain(by_range(measured).into_iter().map(shown)))
}

/// A row of the table of k above 32.
pub fn above_row(measured: &Measured) -> String {
    row([measured.d.to_string()].into_iter().chain(above(measured).into_iter().map(shown)))
}

/// A row of the table of classes: the largest error, and the k that has it, with m at least q and k at most 32.
pub fn class_row(class: Class, measured: &[Measured]) -> String {
    let worst = |found: &Measured| {
        let range = least_sound(found.d)..=ALL_PLANES;
        let Cell { k, error, .. } = found.worst(|cell| cell.class == class && range.contains(&cell.k));
        format!("{} ({k})", shown(*error))
    };
    row([class.name().to_string()].into_iter().chain(measured.iter().map(worst)))
}

/// The bound of the argument before the rounding to binary32, for a range of k.
pub fn largest_bound(d: u32, range: RangeInclusive<i32>) -> f64 {
    range.map(|k| bound(d, k)).fold(0.0, f64::max)
}

/// A row of the table of the argument: the bounds for the last two ranges of the first table.
pub fn argument_row(d: u32) -> String {
    let [.., fine, coarse] = ranges(d);
    row([d.to_string()].into_iter().chain([fine, coarse].map(|range| shown(largest_bound(d, range)))))
}

/// A row of the table of all k: the largest error in each dimension.
pub fn k_row(k: i32, measured: &[Measured]) -> String {
    let worst = |found: &Measured| {
        let cell = found.worst(|cell| cell.k == k);
        format!("{} {:?}", shown(cell.error), cell.class)
    };
    row([k.to_string()].into_iter().chain(measured.iter().map(worst)))
}

/// The worst block of a range of k, as words, with its q.
pub fn worst_block(measured: &Measured, range: RangeInclusive<i32>) -> String {
    let Cell { k, class, error, words, .. } = measured.worst(|cell| range.contains(&cell.k));
    let q = error::lowest(measured.d, words, *k);
    let words: Vec<String> = words.iter().map(|word| format!("{word:08x}")).collect();
    format!("dimension {}, k = {k}, q = {q}, {class:?}, error {error}: {}", measured.d, words.join(" "))
}
