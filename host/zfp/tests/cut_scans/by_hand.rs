//! Slots of 16 bits that are written out by hand, with what they read as.

use testing::{FLOATS, INTEGERS};

/// A slot.
pub struct ByHand {
    pub kind: u32,
    pub dimension: u32,
    pub bits: &'static str,
    /// The planes that are whole.
    pub planes: u32,
    pub words: Vec<u32>,
}

/// Along an axis 0 2 0 0 reads as 3 1 -1 -3, and 0 0 1 0 as -1 1 1 -1.
const SECOND: [i32; 4] = [3, 1, -1, -3];

fn integers(dimension: u32, bits: &'static str, planes: u32, words: &[i32], power: u32) -> ByHand {
    let words = words.iter().map(|&word| (word << power) as u32).collect();
    ByHand { kind: INTEGERS, dimension, bits, planes, words }
}

/// Planes after a head of e = 128, so m is 1 and the integers are counted in 2^-29.
fn floats(bits: &'static str, planes: u32, words: [f32; 4]) -> ByHand {
    ByHand { kind: FLOATS, dimension: 1, bits, planes, words: words.map(f32::to_bits).to_vec() }
}

/// Ones of planes with odd numbers are negative.
pub fn slots() -> Vec<ByHand> {
    let square = [-1, 1, 1, -1].repeat(4);
    let cube: Vec<i32> = (0..64).map(|place| SECOND[place % 4] * SECOND[place / 4 % 4]).collect();
    vec![
        // The scan comes to place 0 of plane 16, to 1 of 17 and to 2 of 18. Of plane 19 the one at place 3 is known.
        integers(1, "000000000000000 1", 15, &[1, 1, 1, 1], 16),
        integers(1, "00000000000000 1 0", 14, &[-3, -1, 1, 3], 16),
        integers(1, "0000000000000 1 00", 13, &[-1, 1, 1, -1], 18),
        integers(1, "000000000000 1 000", 13, &[1, -5, 5, -1], 17),
        // Ones at place 0 of planes 20 and 19. The scan of plane 19 comes to place 1: 2^19 and -2^19.
        integers(1, "00000000000 110 1 1", 12, &[-1, 1, 3, 5], 18),
        // A one at place 0 of plane 17, and not the test after it.
        integers(1, "00000000000000 1 1", 14, &[-1, -1, -1, -1], 17),
        // A one at place 0 of plane 19. Of plane 18 there is place 0, and not the test.
        integers(1, "000000000000 110 0", 13, &[-1, -1, -1, -1], 19),
        // Ones at places 0 and 1 of plane 21. Of plane 20 there is place 0, a one, and not place 1: -2^20 and -2^21.
        integers(1, "0000000000 11110 1", 11, &[-4, -2, 0, 2], 20),
        // The coefficient of number 4 in plane 20: that at i = 2, j = 0 of a square, and at i = j = 1, k = 0 of a cube.
        integers(2, "00000000000 1 0000", 11, &square, 20),
        integers(3, "00000000000 1 0000", 11, &cube, 18),
        // The scan comes to place 0 of plane 25 and to place 1 of plane 26.
        floats("1 00000001 000000 1", 6, [-0.0625; 4]),
        floats("1 00000001 00000 1 0", 5, [0.1875, 0.0625, -0.0625, -0.1875]),
        // A one at place 0 of plane 30. The scan of plane 29 comes to place 2: 2^30 and -2^29.
        floats("1 00000001 0 110 0 1 0", 2, [3.0, 1.0, 1.0, 3.0]),
    ]
}
