//! A bound on the error by an argument, which is not proved: how far an integer that is read can be from the one stored.
//!
//! Without roundings the transform and its inverse are linear, and the one undoes the other. Left are: the digits dropped
//! below the k highest planes of each coefficient, each halving, which rounds down by 0 or 1/2, and the cut of a value to
//! an integer, by less than 1. Each is followed to the place where it ends up, with its weight, and all are taken to be
//! at their worst at once. No sum may leave the range of a word, so the argument is for k of at least 2d + 2.

use crate::power_of_two;
use reference::words::from_negabinary;

/// Steps on four values in which one halving, counted from 0, adds 1 to what it gives.
struct Halvings {
    next: usize,
    disturbed: Option<usize>,
}

impl Halvings {
    fn half(&mut self, value: f64) -> f64 {
        let extra = if self.disturbed == Some(self.next) { 1.0 } else { 0.0 };
        self.next += 1;
        value / 2.0 + extra
    }
}

fn lift(disturbed: Option<usize>) -> [f64; 4] {
    let mut h = Halvings { next: 0, disturbed };
    let [mut x, mut y, mut z, mut w] = [0.0; 4];
    x = h.half(x + w);
    w -= x;
    z = h.half(z + y);
    y -= z;
    x = h.half(x + z);
    z -= x;
    w = h.half(w + y);
    y -= w;
    w += h.half(y);
    y -= h.half(w);
    [x, y, z, w]
}

fn unlift([mut x, mut y, mut z, mut w]: [f64; 4], disturbed: Option<usize>) -> [f64; 4] {
    let mut h = Halvings { next: 0, disturbed };
    y += h.half(w);
    w -= h.half(y);
    y += w;
    w = 2.0 * w - y;
    z += x;
    x = 2.0 * x - z;
    y += z;
    z = 2.0 * z - y;
    w += x;
    x = 2.0 * x - w;
    [x, y, z, w]
}

/// What each of the six halvings of the transform and of the two of its inverse adds to the four values read.
fn responses() -> Vec<[f64; 4]> {
    let written = (0..6).map(|halving| unlift(lift(Some(halving)), None));
    written.chain((0..2).map(|halving| unlift([0.0; 4], Some(halving)))).collect()
}

/// The weight of coefficient j in value i of a line.
pub fn weight(i: usize, j: usize) -> f64 {
    let mut coefficients = [0.0; 4];
    coefficients[j] = 1.0;
    unlift(coefficients, None)[i]
}

/// Sums of positive weights and of negative ones, the latter without their signs.
#[derive(Clone, Copy)]
struct Weights {
    positive: f64,
    negative: f64,
}

impl Weights {
    /// All of them times a number.
    fn times(self, factor: f64) -> Weights {
        let (positive, negative) = (self.positive * factor.abs(), self.negative * factor.abs());
        if factor < 0.0 {
            Weights { positive: negative, negative: positive }
        } else {
            Weights { positive, negative }
        }
    }

    fn plus(self, other: Weights) -> Weights {
        Weights { positive: self.positive + other.positive, negative: self.negative + other.negative }
    }

    /// The largest sum of these weights times numbers from `least` to `most`, and the largest of the negated sum.
    fn extremes(self, least: f64, most: f64) -> [f64; 2] {
        [self.positive * most - self.negative * least, self.negative * most - self.positive * least]
    }
}

/// The least and the largest number that the digits below the k highest planes stand for: ones at every second place.
pub fn dropped(k: i32) -> (i32, i32) {
    let below = !(!0u64 << (32 - k)) as u32;
    (from_negabinary(0xAAAA_AAAA & below) as i32, from_negabinary(0x5555_5555 & below) as i32)
}

/// How far the integer read at a place can be above and below the one stored, k from 1 to 32.
fn at_place(d: u32, k: i32, place: usize) -> [f64; 2] {
    let mut weights = Weights { positive: 1.0, negative: 0.0 };
    let mut reach = [0.0; 2];
    let mut add = |[up, down]: [f64; 2]| reach = [reach[0] + up, reach[1] + down];
    for axis in 0..d {
        let i = place / 4usize.pow(axis) % 4;
        for response in responses() {
            add(weights.times(response[i]).extremes(-0.5, 0.0));
        }
        let along = (0..4).map(|j| weights.times(weight(i, j)));
        weights = along.reduce(Weights::plus).expect("a line has four values");
    }
    let (least, most) = dropped(k);
    // The coefficient read is the one stored less the digits dropped.
    add(weights.extremes(-f64::from(most), -f64::from(least)));
    reach
}

/// The bound before the rounding to binary32, in units of 2^q: that of the worst place, which is a whole number since both
/// integers are, and 1 for the cut. One unit of the integers is 2^(m-30). The error is below it.
pub fn bound(d: u32, k: i32) -> f64 {
    let planes = k.min(crate::ALL_PLANES);
    let places = 0..crate::block_len(d);
    let worst = places.flat_map(|place| at_place(d, planes, place)).fold(0.0, f64::max);
    (worst.floor() + 1.0) * power_of_two(k - 32 - 2 * d as i32)
}
