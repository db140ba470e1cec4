//! Lossy blocks whose 32 planes are written out by hand, plane by plane, so that it can be said of every slot how many of
//! them it takes whole.

use super::{axes_block, indices};
use crate::{FLOATS, INTEGERS};

/// A lossy block and the code of each of its planes.
pub struct Planes {
    /// The kind of the words.
    pub kind: u32,
    /// The dimension of the block.
    pub dimension: u32,
    /// The words.
    pub words: Vec<u32>,
    /// m, of floats.
    pub m: Option<i32>,
    /// The bits before the planes, without spaces.
    pub head: &'static str,
    /// The code of each plane, that of plane 31 first.
    pub planes: Vec<String>,
}

impl Planes {
    /// The uncut code of the upper planes, head included.
    pub fn code(&self, planes: u32) -> String {
        self.head.to_string() + &self.planes[..planes as usize].concat()
    }

    /// The q with which m - q + 2 x (dimension + 1) is this number. The block is of floats.
    pub fn lowest(&self, planes: i32) -> i32 {
        self.m.expect("floats have an exponent") + 2 * (self.dimension as i32 + 1) - planes
    }

    /// How many of the upper planes end within a slot of that width.
    pub fn whole(&self, planes: u32, width: usize) -> u32 {
        (1..=planes).take_while(|&count| self.code(count).len() <= width).count() as u32
    }
}

fn integers(dimension: u32, words: Vec<i32>, planes: &[(usize, &str)]) -> Planes {
    let words = words.into_iter().map(|word| word as u32).collect();
    Planes { kind: INTEGERS, dimension, words, m: None, head: "", planes: repeated(planes) }
}

/// Each text so many times. There are 32 in all.
fn repeated(planes: &[(usize, &str)]) -> Vec<String> {
    let all: Vec<String> = planes.iter().flat_map(|&(times, code)| vec![code.to_string(); times]).collect();
    assert_eq!(all.len(), 32);
    all
}

/// 1 2 3 4 lifts to 2 -1 0 0, in negabinary 6 3 0 0: the planes 2, 1 and 0 are 1 0 0 0, 1 1 0 0 and 0 1 0 0.
pub fn small() -> Planes {
    integers(1, vec![1, 2, 3, 4], &[(29, "0"), (1, "110"), (1, "1110"), (1, "010")])
}

/// 0 0 0 16 lifts to 4 -5 -4 2, in negabinary 4 15 12 6: the planes 3 to 0 are 0 1 1 0, 1 1 1 1, 0 1 0 1 and 0 1 0 0. The one
/// at place 3 of plane 2 is known after its test. From there on n = N, and planes 1 and 0 are four bits each.
pub fn all_places() -> Planes {
    let planes = [(28, "0"), (1, "101110"), (1, "1111"), (1, "0101"), (1, "0100")];
    integers(1, vec![0, 0, 0, 16], &planes)
}

/// 2000 2004 2008 2012 along i, the same along the other axes. Equal values lift to the value and 0 0 0; 2000 2004 2008 2012
/// to 2006 -4 0 0, which come first in the order of every dimension. In negabinary 2006 has the bits 12, 11, 5, 3 and 1
/// (4096 - 2048 - 32 - 8 - 2), and -4 has 3 and 2 (-8 + 4).
pub fn readings(dimension: u32) -> Planes {
    let words = (0..4i32.pow(dimension)).map(|place| 2000 + 4 * (place % 4)).collect();
    let upper = [(19, "0"), (1, "110"), (1, "10"), (5, "00"), (1, "10"), (1, "00")];
    let lower = [(1, "1110"), (1, "010"), (1, "100"), (1, "000")];
    integers(dimension, words, &[&upper[..], &lower].concat())
}

/// Only the last coefficient is not 0, and has one bit: its scan passes all places, and then n = N.
///
/// Along an axis c -5c 5c -c lifts to 0 0 0 -4c. So a word is 2 or 1 times what its indices have there, and the coefficient
/// -4 x 2, 16, -64 x 2 or 256: the bits 3, 4, 7 and 8, of which negabinary counts the odd ones as negative.
pub fn last_place(dimension: u32) -> Planes {
    let (times, bit) = [(2, 3), (1, 4), (2, 7), (1, 8)][dimension as usize - 1];
    let n = 4usize.pow(dimension);
    let word = |place: usize| -> i32 {
        let along = indices(place).into_iter().take(dimension as usize);
        times * along.map(|index| [1, -5, 5, -1][index]).product::<i32>()
    };
    let (scan, zeros) = (format!("1{}", "0".repeat(n - 1)), "0".repeat(n));
    integers(dimension, (0..n).map(word).collect(), &[(31 - bit, "0"), (1, &scan), (bit, &zeros)])
}

/// [`axes_block`]: one coefficient, -1, which is 3 in negabinary and has the number axis + 1.
pub fn axes(dimension: u32, axis: usize) -> Planes {
    let zeros = "0".repeat(axis + 1);
    let (scan, bits) = (format!("1{zeros}10"), format!("{zeros}10"));
    let words = axes_block(dimension, axis).into_iter().map(|word| word as i32).collect();
    integers(dimension, words, &[(30, "0"), (1, &scan), (1, &bits)])
}

/// N times 1.0: e is 128, so m is 1, and the first coefficient is 2^29, in negabinary the bits 30 and 29; the others are 0.
pub fn ones(dimension: u32) -> Planes {
    let words = vec![0x3F80_0000; 4usize.pow(dimension)];
    let planes = repeated(&[(1, "0"), (1, "110"), (1, "10"), (29, "00")]);
    Planes { kind: FLOATS, dimension, words, m: Some(1), head: "100000001", planes }
}

/// The 128th part of a degree, in which [`degrees`] are counted.
pub const PART: f32 = 1.0 / 128.0;

/// 2000 2004 2008 2012 parts of a degree along i, the same along the other axes: from 15.625 to 15.71875. They are below 2^4,
/// so m is 4 and e 131, and the integers are those of [`readings`] times 2^19. So are the coefficients, 2006 and -4. In
/// negabinary 2^19 x 2006 has the bits 30 (2048 parts), 25 (-64), 24 (32), 23 (-16), 22 (8), 21 (-4) and 20 (2), and 2^19 x -4
/// has bit 21.
pub fn degrees(dimension: u32) -> Planes {
    let words = (0..4u32.pow(dimension)).map(|place| (PART * (2000 + 4 * (place % 4)) as f32).to_bits());
    let planes = [(1, "0"), (1, "110"), (4, "00"), (4, "10"), (1, "1110"), (1, "100"), (20, "000")];
    let (words, planes) = (words.collect(), repeated(&planes));
    Planes { kind: FLOATS, dimension, words, m: Some(4), head: "111000001", planes }
}

/// What a line along i of [`degrees`] reads as, in parts, if so many planes of it are kept. With 11 the second coefficient is
/// there: of 2004 -4 0 0 reading makes 1998 2002 2006 2010.
pub fn degrees_read(planes: u32) -> [f32; 4] {
    match planes {
        0 | 1 => [0.0; 4],
        2..=6 => [2048.0; 4],
        7 => [1984.0; 4],
        8 => [2016.0; 4],
        9 => [2000.0; 4],
        10 => [2008.0; 4],
        11 => [1998.0, 2002.0, 2006.0, 2010.0],
        _ => [2000.0, 2004.0, 2008.0, 2012.0],
    }
}

/// All of them.
pub fn all() -> Vec<Planes> {
    let mut all = vec![small(), all_places()];
    for dimension in 1..=4 {
        all.extend([readings(dimension), last_place(dimension), ones(dimension), degrees(dimension)]);
        all.extend((1..dimension).map(|axis| axes(dimension, axis as usize - 1)));
    }
    all
}
