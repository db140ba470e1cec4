//! The planes that a lossy slot has whole, asked of libzfp, which does not report them.
//!
//! Told to keep k planes, with no budget, libzfp writes the first k planes of a block and nothing after them, and of floats no
//! plane below q. Every plane has a bit, so it codes as many planes as make its code longer. The planes that end within W bits
//! are the largest k of them of which libzfp's code has at most W bits. In reading it takes the bits of k planes, those that a
//! slot lacks from what follows the slot. So the planes that can be read whole are the largest k for which it takes at most W
//! bits.

use crate::classes::{Head, ties_differ};
use crate::libzfp::{Libzfp, Setting, Shape, shape, unlimited};
use reference::params::{Checked, Kind};
use reference::planes;
use reference::transform::{from_coefficients, sums};

/// The bits in front of the planes of an exact block of integers.
const EXACT_HEAD: usize = 5;

/// The planes of a lossy slot that can be read whole. How many bits a plane takes does not depend on the order of coefficients.
pub fn planes_read(lib: &Libzfp, p: &Checked, slot: &[bool]) -> u32 {
    let Some(head) = Head::of(p, slot) else {
        return 0;
    };
    let bits = |planes| lib.decode(shape(p), unlimited(p, planes), slot).1;
    largest(coded(p, head.len, bits), |planes| bits(planes) <= p.width)
}

/// The planes that end within the slot. The block is lossy, and no class but that of the order applies to it.
pub fn planes_within(lib: &Libzfp, p: &Checked, words: &[u32]) -> u32 {
    let whole = lib.encode(shape(p), unlimited(p, p.planes), words);
    let Some(head) = Head::of(p, &whole) else {
        return 0;
    };
    let bits = |planes| lib.bits(shape(p), unlimited(p, planes), words);
    let coded = coded(p, head.len, bits);
    if !ties_differ(p.dimension) {
        return largest(coded, |planes| bits(planes) <= p.width);
    }
    let (coefficients, _) = planes::read::<u32>(&whole[head.len..], p.block_len(), coded);
    let in_our_order = lib.orders(p.dimension).to_ours(&coefficients);
    largest(coded, |planes| head.len + bits_of_planes(lib, p, &in_our_order, planes) <= p.width)
}

/// The planes that libzfp codes or reads: P, or fewer if q leaves fewer. A plane is one of them if the bits are more with it.
fn coded(p: &Checked, head: usize, bits: impl Fn(u32) -> usize) -> u32 {
    let all = bits(p.planes);
    let has_next = |planes| if planes == 0 { head < all } else { bits(planes) < all };
    if has_next(p.planes - 1) { p.planes } else { largest(p.planes, |planes| has_next(planes - 1)) }
}

/// The largest number of planes from 1 to `most` of which something holds, or 0. What holds of a number holds of smaller ones.
fn largest(most: u32, holds: impl Fn(u32) -> bool) -> u32 {
    let (mut holding, mut too_many) = (0, most + 1);
    while too_many - holding > 1 {
        let planes = holding.midpoint(too_many);
        if holds(planes) {
            holding = planes;
        } else {
            too_many = planes;
        }
    }
    holding
}

/// The bits that libzfp takes for the upper planes of coefficients that stand in this very order.
///
/// It is handed the integers whose exact transform gives them in libzfp's order. Its reversible mode leaves out the planes
/// below the lowest one that is a one's. So where no coefficient has a one in plane 0, the first gets one. That makes no code
/// longer: there are ones above, so it is among the bits that are written as they are.
fn bits_of_planes(lib: &Libzfp, p: &Checked, coefficients: &[u32], planes: u32) -> usize {
    if coefficients.iter().all(|&coefficient| coefficient == 0) {
        return planes as usize;
    }
    let mut coefficients = coefficients.to_vec();
    if coefficients.iter().all(|coefficient| coefficient % 2 == 0) {
        coefficients[0] |= 1;
    }
    let ordered = lib.orders(p.dimension).to_ours(&coefficients);
    let block = from_coefficients(&ordered, p.dimension, sums);
    let integers = Shape { kind: Kind::Integers, dimension: p.dimension };
    lib.bits(integers, Setting::ReversiblePlanes(planes), &block) - EXACT_HEAD
}
