//! Orders and blocks worked out by hand for every dimension, and lossy integers.

pub mod integers;
pub mod planes;

/// The places of a cube in the order of their coefficients, written out from the rule: a line for each sum of the
/// indices; in a line by the sum of squares, then larger i first, then larger j.
const CUBE: [&[usize]; 10] = [
    &[0],
    &[1, 4, 16],
    &[5, 17, 20, 2, 8, 32],
    &[21, 6, 18, 9, 33, 24, 36, 3, 12, 48],
    &[22, 25, 37, 10, 34, 40, 7, 19, 13, 49, 28, 52],
    &[26, 38, 41, 23, 29, 53, 11, 35, 14, 50, 44, 56],
    &[42, 27, 39, 30, 54, 45, 57, 15, 51, 60],
    &[43, 46, 58, 31, 55, 61],
    &[47, 59, 62],
    &[63],
];

/// The same for a stack of four cubes as far as the sum 3, and from the sum 11 on.
const STACK_BEGINS: [&[usize]; 4] = [
    &[0],
    &[1, 4, 16, 64],
    &[5, 17, 65, 20, 68, 80, 2, 8, 32, 128],
    &[21, 69, 81, 84, 6, 18, 66, 9, 33, 129, 24, 72, 36, 132, 96, 144, 3, 12, 48, 192],
];
const STACK_ENDS: [&[usize]; 2] = [&[191, 239, 251, 254], &[255]];

/// Numbers in the order of coefficients, each with its place. In dimension 4 those at the beginning and the end only.
pub fn order(dimension: u32) -> Vec<(usize, usize)> {
    let places = match dimension {
        1 => vec![0, 1, 2, 3],
        // Document 01's own table.
        2 => vec![0, 1, 4, 5, 2, 8, 6, 9, 3, 12, 10, 7, 13, 11, 14, 15],
        3 => CUBE.concat(),
        _ => {
            let (begins, ends) = (STACK_BEGINS.concat(), STACK_ENDS.concat());
            let first_of_end = 256 - ends.len();
            return begins.into_iter().enumerate().chain((first_of_end..).zip(ends)).collect();
        }
    };
    places.into_iter().enumerate().collect()
}

/// The indices i, j, k and l of a place; one that the dimension lacks is 0.
pub fn indices(place: usize) -> [usize; 4] {
    [place % 4, place / 4 % 4, place / 16 % 4, place / 64]
}

/// P3 in every dimension: the integers whose exact code is 33N + 4 ones.
///
/// Every coefficient is 0xAAAAAAAB, which negabinary writes with ones only. Along an axis 1 1 1 1 are the differences
/// of 1 2 4 8, so a word is that times 2 to the sum of its indices.
pub fn longest(dimension: u32) -> Vec<u32> {
    let word = |place| 0xAAAA_AAABu32 << indices(place).iter().sum::<usize>();
    (0..4usize.pow(dimension)).map(word).collect()
}

/// Integers that have one coefficient other than 0: a 1 at this place.
///
/// Along an axis 1 1 1 1, 0 1 2 3, 0 0 1 3 and 0 0 0 1 have the differences 1 0 0 0, 0 1 0 0, 0 0 1 0 and 0 0 0 1. A
/// word is the product of what its four indices have there.
pub fn single(dimension: u32, place: usize) -> Vec<u32> {
    const LINES: [[u32; 4]; 4] = [[1, 1, 1, 1], [0, 1, 2, 3], [0, 0, 1, 3], [0, 0, 0, 1]];
    let line_of = indices(place);
    let word = |at: usize| (0..4).map(|axis| LINES[line_of[axis]][indices(at)[axis]]).product();
    (0..4usize.pow(dimension)).map(word).collect()
}

/// The exact code of [`single`], whose coefficient is `number` in the order: p = 32, planes 31 to 1 are empty, and the
/// scan of plane 0 passes `number` zeros. Of the last place the one is known.
pub fn single_code(dimension: u32, number: usize) -> String {
    let is_last = number + 1 == 4usize.pow(dimension);
    let end = if is_last { "" } else { "10" };
    format!("11111 {} 1 {}{end}", "0".repeat(31), "0".repeat(number))
}

/// Integers whose lossy transform shows the order of an axis and the next one: 3 where the index of `axis` is 3 and
/// those of all later axes are 1.
///
/// Along an axis 3 3 3 3 lifts to 3 0 0 0; 0 0 0 3 to 0 -1 0 0; and 0 -1 0 0 to -1 0 0 0. So axis by axis a single -1 is
/// left, at index 1 of `axis`. With the next axis before it 0 3 0 0 lifts to 0 1 1 1 and then 0 0 0 1 to zeros.
pub fn axes_block(dimension: u32, axis: usize) -> Vec<u32> {
    let is_three = |place| {
        let at = indices(place);
        at[axis] == 3 && at[axis + 1..dimension as usize].iter().all(|&index| index == 1)
    };
    (0..4usize.pow(dimension)).map(|place| if is_three(place) { 3 } else { 0 }).collect()
}

/// The lossy code of [`axes_block`] in 32 planes: -1 is 3 in negabinary, and index 1 of the axes i, j, k and l has the
/// numbers 1, 2, 3 and 4 in the order.
pub fn axes_code(axis: usize) -> String {
    lossy_code_of_minus_one(axis + 1)
}

/// 32 planes of coefficients that are 0 but for a -1, 3 in negabinary, that is not the last.
fn lossy_code_of_minus_one(number: usize) -> String {
    let zeros = "0".repeat(number);
    format!("{} 1 {zeros} 1 0  {zeros} 1 0", "0".repeat(30))
}

/// A lossy code whose reading shows the order of an axis and the next one: a -1 at index 1 of both.
///
/// Reading makes of 0 -1 0 0 along the next axis -2 0 0 2, then of 0 -2 0 0 along `axis` -3 -1 1 3 and of 0 2 0 0 the
/// opposite; along the other axes all are equal. The other way round the two indices would change places.
pub fn axes_slot(dimension: u32, axis: usize) -> (String, Vec<i32>) {
    let place = 4usize.pow(axis as u32) * 5;
    let number =
        order(dimension).into_iter().find(|entry| entry.1 == place).expect("the table has the place").0;
    let word = |at: usize| match (indices(at)[axis], indices(at)[axis + 1]) {
        (index, 0) => [-3, -1, 1, 3][index],
        (index, 3) => [3, 1, -1, -3][index],
        _ => 0,
    };
    (lossy_code_of_minus_one(number), (0..4usize.pow(dimension)).map(word).collect())
}

/// The exact code of 1 0 0 .. 0 in dimensions 3 and 4.
///
/// Along an axis 1 0 0 0 has the differences 1 -1 1 -1, so a coefficient is -1, in negabinary 3, where the sum of its
/// indices is odd, otherwise 1. The sums 0, 1, 2, .. occur 1, 3, 6, 10, 12, 12, 10, 6, 3, 1 times in dimension 3, and
/// 1, 4, 10, 20, 31, 40, 44, 40, 31, 20, 10, 4, 1 times in dimension 4. Plane 1 has zeros and ones in turn. A one after
/// another costs a test and a bit; the last place of a cube is a one that is known, that of a stack a zero.
pub fn first_word_code(dimension: u32) -> String {
    let run = |zeros: usize, ones: usize| format!("1 {} 1 {} ", "0".repeat(zeros), "11".repeat(ones - 1));
    let (plane_1, places) = match dimension {
        3 => ([run(1, 3), run(6, 10), run(12, 12), run(10, 6), "1 000".into()].concat(), 64),
        _ => {
            let runs = [run(1, 4), run(10, 20), run(31, 40), run(44, 40), run(31, 20), run(10, 4)];
            (runs.concat() + "0", 256)
        }
    };
    format!("11111 {} {plane_1} {}", "0".repeat(30), "1".repeat(places))
}
