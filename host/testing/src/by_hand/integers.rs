//! Lossy integers of dimension 1 with all planes, in slots that cut nothing: what they come back as (document 02, M-107).

use std::ops::RangeInclusive;

/// The most bits that four words take in 32 planes, 4 x 32 + 3: a slot of so many cuts nothing.
pub const MOST_BITS: u32 = 131;

/// Values are from -LARGEST to LARGEST.
pub const LARGEST: i32 = (1 << 30) - 1;

/// How far off each value may come back: below 0 too low, above 0 too high.
pub const BOUNDS: [RangeInclusive<i64>; 4] = [-2..=1, 0..=0, -1..=0, -2..=0];

/// How far off each value came back.
pub fn off(values: [i32; 4], back: [i32; 4]) -> [i64; 4] {
    [0, 1, 2, 3].map(|place| i64::from(back[place]) - i64::from(values[place]))
}

/// Whether each value is within its bounds.
pub fn within(off: [i64; 4]) -> bool {
    BOUNDS.iter().zip(off).all(|(bound, off)| bound.contains(&off))
}

/// What four words come back as, from the bits that the four halvings lose: of x + w, of z + y, of the sum of their halves,
/// and of the sum of what is left of w and y. All of it is modulo 2^32, and holds of values out of the range too.
pub fn back([x, y, z, w]: [i32; 4]) -> [i32; 4] {
    let (outer, inner) = (x.wrapping_add(w), z.wrapping_add(y));
    let halves = (outer >> 1).wrapping_add(inner >> 1);
    let left = w.wrapping_add(y).wrapping_sub(halves);
    let [a, b, c, d] = [outer, inner, halves, left].map(|sum| sum & 1);
    [x.wrapping_sub(a + c - d), y, z.wrapping_sub(b), w.wrapping_sub(c + d)]
}

/// Every block of which each value is one of these.
pub fn blocks_of(values: &[i32]) -> impl Iterator<Item = [i32; 4]> {
    let len = values.len();
    (0..len.pow(4)).map(move |block| [0, 1, 2, 3].map(|place| values[block / len.pow(place) % len]))
}
