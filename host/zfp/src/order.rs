//! The order in which libzfp codes the coefficients of a block, found by trial, beside document 02's.
//!
//! libzfp's documentation gives the sum of the indices and the sum of their squares (document 004), and is silent about
//! ties. So each place is tried: a block is made whose only coefficient is there, and where its one stands in libzfp's
//! code is the coefficient's number.

use crate::classes::Head;
use crate::libzfp::{Setting, Shape, encode};
use reference::bits::number;
use reference::params::{Checked, Kind};
use reference::words::from_negabinary;
use reference::{planes, transform};

/// Both orders: the place of each coefficient.
#[derive(Clone, Debug)]
pub struct Orders {
    /// That of document 01 and document 02.
    pub ours: Vec<usize>,
    /// That of libzfp.
    pub libzfps: Vec<usize>,
}

impl Orders {
    /// Both for a dimension.
    pub fn find(dimension: u32) -> Orders {
        Orders { ours: transform::order(dimension), libzfps: libzfp_order(dimension) }
    }

    /// How many places have a coefficient of another number.
    pub fn different(&self) -> usize {
        self.ours.iter().zip(&self.libzfps).filter(|(ours, libzfps)| ours != libzfps).count()
    }

    /// Coefficients in libzfp's order, put into ours.
    pub fn to_ours(&self, coefficients: &[u32]) -> Vec<u32> {
        moved(coefficients, &self.libzfps, &self.ours)
    }

    /// Coefficients in our order, put into libzfp's.
    pub fn to_libzfps(&self, coefficients: &[u32]) -> Vec<u32> {
        moved(coefficients, &self.ours, &self.libzfps)
    }
}

/// Coefficients that stand in one order, put into another.
fn moved(coefficients: &[u32], from: &[usize], to: &[usize]) -> Vec<u32> {
    let mut block = vec![0; coefficients.len()];
    for (&place, &coefficient) in from.iter().zip(coefficients) {
        block[place] = coefficient;
    }
    to.iter().map(|&place| block[place]).collect()
}

/// The places in the order of libzfp's coefficients.
///
/// # Panics
/// If libzfp's codes do not show an order in which each place occurs once.
pub fn libzfp_order(dimension: u32) -> Vec<usize> {
    let len = 4usize.pow(dimension);
    let mut order = vec![None; len];
    for place in 0..len {
        let number = number_at(dimension, place);
        let other = order[number].replace(place);
        assert_eq!(other, None, "libzfp gives the number {number} to two places");
    }
    order.into_iter().map(|place| place.expect("every number is given, each once")).collect()
}

/// The number of the coefficient at a place.
fn number_at(dimension: u32, place: usize) -> usize {
    const HIGHEST: u32 = 1 << 31;
    let len = 4usize.pow(dimension);
    let mut block = vec![0; len];
    block[place] = from_negabinary(HIGHEST);
    transform::backward(&mut block, dimension, transform::sums);
    let code = encode(Shape { kind: Kind::Integers, dimension }, Setting::Reversible, &block);
    // Five bits of p - 1 and a test, then the zeros before the one. At the last place there is no one to be written.
    let zeros = code[6..].iter().take_while(|&&bit| !bit).count();
    let mut coefficients = vec![0; len];
    coefficients[zeros] = HIGHEST;
    assert_eq!(
        code,
        [number(0, 5), planes::code(&coefficients, 1)].concat(),
        "not the code of one coefficient"
    );
    zeros
}

/// The bits of a slot, and how many of them are its code's.
pub struct Reordered {
    /// The head as it was, the planes with their coefficients in the other order, what follows as it was.
    pub bits: Vec<bool>,
    /// The bits of head and planes before.
    pub taken: usize,
}

/// Bits that begin with a whole code in our order, put into libzfp's.
pub fn reordered(p: &Checked, bits: &[bool], orders: &Orders) -> Reordered {
    let Some(head) = Head::of(p, bits) else {
        return Reordered { bits: bits.to_vec(), taken: 1 };
    };
    let (coefficients, _) = planes::read(&bits[head.len..], p.block_len(), head.planes);
    let taken = head.len + planes::code(&coefficients, head.planes).len();
    let code = planes::code(&orders.to_libzfps(&coefficients), head.planes);
    Reordered { bits: [&bits[..head.len], &code, &bits[taken..]].concat(), taken }
}
