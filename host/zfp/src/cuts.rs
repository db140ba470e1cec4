//! Slots whose budget ends inside a scan: which ones these are, and planes that are made so.
//!
//! A reader sets the bit at the place that the scan has come to: document 02's M-104, and libzfp. Whether a slot ends so is
//! found here by following its tests and scans, apart from the readers that are compared.

use crate::classes::Head;
use random::Random;
use reference::params::{Checked, Mode};
use std::ops::{Range, RangeInclusive};

/// A bit of the coefficients.
#[derive(Clone, Copy, Debug, PartialEq, Eq, PartialOrd, Ord)]
pub struct Place {
    /// Its plane.
    pub plane: u32,
    /// Which coefficient, in the order of coding.
    pub coefficient: usize,
}

/// A test was answered 1, and the bits end before the scan after it has found its one or come to place N-1. Gives the
/// place that the scan had come to.
pub fn cut_scan(bits: &[bool], len: usize, planes: u32) -> Option<Place> {
    let mut rest = bits.iter();
    let mut n = 0;
    for plane in (32 - planes..32).rev() {
        // The n first bits as they are.
        for _ in 0..n {
            rest.next()?;
        }
        while n < len && *rest.next()? {
            while n < len - 1 {
                match rest.next() {
                    Some(true) => break,
                    Some(false) => n += 1,
                    None => return Some(Place { plane, coefficient: n }),
                }
            }
            n += 1;
        }
    }
    None
}

/// The same of a slot, with the bits of its planes. An exact one has no budget.
pub fn slot_cut_in_scan(p: &Checked, slot: &[bool]) -> Option<(Place, usize)> {
    let head = Head::of(p, slot).filter(|_| p.mode == Mode::Lossy)?;
    let bits = &slot[head.len..];
    cut_scan(bits, p.block_len(), head.planes).map(|place| (place, bits.len()))
}

/// The places that a scan can have come to when it is cut, in blocks of so many words.
pub fn places(len: usize) -> impl Iterator<Item = Place> {
    (0..32).flat_map(move |plane| (0..len - 1).map(move |coefficient| Place { plane, coefficient }))
}

/// The bits of planes before such a place.
///
/// At least there are a test for each plane and a bit for each place before this one. There are most if plane 31 has ones at
/// all those places, with a test for each: then all other planes begin with as many bits.
pub fn budgets(place: Place) -> RangeInclusive<usize> {
    let (planes, places) = (32 - place.plane as usize, place.coefficient);
    planes + places..=planes * (places + 1) + places
}

/// The places at which this budget can end.
pub fn places_of(len: usize, budget: usize) -> Vec<Place> {
    places(len).filter(|&place| budgets(place).contains(&budget)).collect()
}

/// Coefficients whose code, cut after that many bits, ends in a scan at the place. All else of them is random.
pub fn cut_at(random: &mut Random, len: usize, place: Place, budget: usize) -> Vec<u32> {
    let end = place.coefficient;
    let mut coefficients: Vec<u32> = (0..len).map(|_| random.word() & ((1 << place.plane) - 1)).collect();
    // Not counted are the 0 that ends each plane above, the bits of the places before the cut and its own test.
    let mut left = budget - (31 - place.plane as usize) - end - 1;
    let mut n = 0;
    for plane in (place.plane + 1..32).rev() {
        let planes = (plane - place.plane) as usize;
        let (next, ones) = moved(random, n..end, planes, left);
        any_bits(random, &mut coefficients[..n], plane);
        if next > n {
            coefficients[next - 1] |= 1 << plane;
            some_ones(random, &mut coefficients[n..next - 1], plane, ones - 1);
        }
        left -= next + ones;
        n = next;
    }
    any_bits(random, &mut coefficients[..n], place.plane);
    some_ones(random, &mut coefficients[n..end], place.plane, left);
    // A one that is not before the place, and any others.
    any_bits(random, &mut coefficients[end..], place.plane);
    coefficients[end + random.below(len - end)] |= 1 << place.plane;
    coefficients
}

/// The n that a whole plane moves to, from the start of the range, and how many ones its scans find.
///
/// Such a plane takes a bit for each place before its new n and a test for each of those ones. It shares the bits left with
/// the planes after it, so many with itself, and with the ones that the cut plane finds. All of them take planes x n at least,
/// if none moves, planes x end + end - n at most, if this one moves to the end by ones alone, and every number between.
fn moved(random: &mut Random, range: Range<usize>, planes: usize, left: usize) -> (usize, usize) {
    let Range { start: n, end } = range;
    let moves = |next: usize| {
        let least = usize::from(next > n).max(left.saturating_sub(planes * end));
        let most = (next - n).min(left.checked_sub(planes * next)?);
        (least <= most).then_some((next, least, most))
    };
    let (next, least, most) = random.pick(&(n..=end).filter_map(moves).collect::<Vec<_>>());
    (next, least + random.below(most - least + 1))
}

/// Any bits of a plane.
fn any_bits(random: &mut Random, coefficients: &mut [u32], plane: u32) {
    coefficients.iter_mut().for_each(|coefficient| *coefficient |= random.word_below(2) << plane);
}

/// So many ones of a plane.
fn some_ones(random: &mut Random, coefficients: &mut [u32], plane: u32, mut ones: usize) {
    let len = coefficients.len();
    for (k, coefficient) in coefficients.iter_mut().enumerate() {
        if random.below(len - k) < ones {
            *coefficient |= 1 << plane;
            ones -= 1;
        }
    }
}
