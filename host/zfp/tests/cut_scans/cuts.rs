//! Where a code can be cut, and what is known of its coefficients there. Nothing here reads a code.

use reference::planes::code_and_ends;
use zfp::cuts::Place;

/// What the end of the budget cuts.
#[derive(Clone, Copy, Debug, PartialEq, Eq, PartialOrd, Ord)]
pub enum End {
    /// The n first bits of a plane, before the one of this place.
    FirstBits,
    /// A test of the places from this one on.
    Test,
    /// A scan that has come to this place.
    Scan,
    /// Nothing of the plane: the one at place N-1 is known.
    KnownOne,
}

/// A place at which a code can be cut.
#[derive(Clone, Copy, Debug)]
pub struct Cut {
    /// The first place of its plane whose bit does not stand before the cut.
    pub place: Place,
    /// What is cut.
    pub end: End,
    /// The bits before.
    pub budget: usize,
}

impl Cut {
    /// The planes that are whole.
    pub fn whole(&self) -> u32 {
        31 - self.place.plane + u32::from(self.end == End::KnownOne)
    }
}

/// Coefficients and their code.
pub struct Coded {
    coefficients: Vec<u32>,
    /// 32 planes of it, uncut.
    pub bits: Vec<bool>,
    ends: Vec<usize>,
}

fn has_one(coefficient: u32, plane: u32) -> bool {
    coefficient >> plane & 1 == 1
}

impl Coded {
    /// The code of 32 planes.
    pub fn new(coefficients: Vec<u32>) -> Coded {
        let (bits, ends) = code_and_ends(&coefficients, 32);
        Coded { coefficients, bits, ends }
    }

    /// n at the start of a plane: past the last place that has a one above it.
    fn n(&self, plane: u32) -> usize {
        let has_one_above = |&coefficient: &u32| u64::from(coefficient) >> (plane + 1) > 0;
        self.coefficients.iter().rposition(has_one_above).map_or(0, |last| last + 1)
    }

    /// All cuts in a plane.
    ///
    /// Before a place stand the planes above, a bit for each place before it, and a test for each one among these that a scan
    /// has found. In a scan one more test has been answered, and nothing is known of the place itself.
    pub fn cuts(&self, plane: u32) -> Vec<Cut> {
        let (n, last) = (self.n(plane), self.coefficients.len() - 1);
        let one_at = |place: usize| has_one(self.coefficients[place], plane);
        let mut before = if plane == 31 { 0 } else { self.ends[30 - plane as usize] };
        let mut cuts = Vec::new();
        for coefficient in 0..=last {
            let place = Place { plane, coefficient };
            let mut cut = |end, budget| cuts.push(Cut { place, end, budget });
            if coefficient < n {
                cut(End::FirstBits, before);
            } else {
                if coefficient == n || one_at(coefficient - 1) {
                    cut(End::Test, before);
                }
                if (coefficient..=last).any(one_at) {
                    let end = if coefficient < last { End::Scan } else { End::KnownOne };
                    cut(end, before + 1);
                }
                before += usize::from(one_at(coefficient));
            }
            before += 1;
        }
        cuts
    }

    /// The coefficients that a reader makes of the bits before a cut: the planes above, the places before, and the one of a
    /// scan or of place N-1.
    pub fn read(&self, cut: &Cut) -> Vec<u32> {
        let mut coefficients = self.before(cut.place);
        if let End::Scan | End::KnownOne = cut.end {
            coefficients[cut.place.coefficient] |= 1 << cut.place.plane;
        }
        coefficients
    }

    /// The bits of the coefficients that stand before a place.
    pub fn before(&self, place: Place) -> Vec<u32> {
        let above = (u64::MAX << (place.plane + 1)) as u32;
        let masks = (0..).map(|k| if k < place.coefficient { above | 1 << place.plane } else { above });
        self.coefficients.iter().zip(masks).map(|(coefficient, mask)| coefficient & mask).collect()
    }
}
