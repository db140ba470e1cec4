//! libzfp's order of coefficients by itself.

use random::{Random, rounds};
use reference::transform::{from_coefficients, sums, unlift};
use reference::words::{flip, to_negabinary};
use reference::{Params, code};
use testing::{EXACT, FLOATS, INTEGERS, LOSSY, MIN_LOWEST};
use zfp::bits::padded;
use zfp::classes::scale_overflows;
use zfp::compare::Comparison;
use zfp::libzfp::{Libzfp, checked, longest_code, setting, shape};

fn lib() -> Libzfp {
    Libzfp::find().unwrap_or_else(|message| panic!("{message}"))
}

/// The sum of the indices of a place, and the sum of their squares.
fn sums_of_indices(place: usize, dimension: u32) -> (usize, usize) {
    let indices = (0..dimension).map(|axis| place / 4usize.pow(axis) % 4);
    (indices.clone().sum(), indices.map(|index| index * index).sum())
}

/// Each place occurs once, and the sums go as in document 02. So what stands elsewhere is among ties; in dimensions 1
/// and 2 nothing does.
#[test]
fn libzfps_order_differs_among_ties_alone() {
    let lib = lib();
    for dimension in 1..=4 {
        let orders = lib.orders(dimension);
        let mut places = orders.libzfps.clone();
        places.sort();
        assert!(places.into_iter().eq(0..4usize.pow(dimension)));
        for (&ours, &libzfps) in orders.ours.iter().zip(&orders.libzfps) {
            assert_eq!(sums_of_indices(ours, dimension), sums_of_indices(libzfps, dimension));
        }
        assert_eq!(orders.different() > 0, dimension > 2);
    }
}

/// Coefficients for blocks of a kind and mode: the signed values, in the order of coding.
type Values = fn(&mut Random, usize) -> Vec<i32>;

fn any(random: &mut Random, n: usize) -> Vec<i32> {
    (0..n).map(|_| random.word() as i32).collect()
}

fn of_one_magnitude(random: &mut Random, n: usize) -> Vec<i32> {
    let shift = random.word_below(32);
    any(random, n).into_iter().map(|value| value >> shift).collect()
}

/// So small that the lossy sums of reading do not overflow; then they are undone by those of writing.
fn small(random: &mut Random, n: usize) -> Vec<i32> {
    let shift = random.between(12, 31);
    any(random, n).into_iter().map(|value| value >> shift).collect()
}

/// A first value that is much larger than the others, so that all words have one exponent, and multiples of 4 for each
/// dimension, so that no halving rounds.
fn about_one_value(random: &mut Random, n: usize) -> Vec<i32> {
    let few = random.between(1, 20) as usize;
    let mut values: Vec<i32> = (0..n)
        .map(|_| if random.once_in(few) { (random.word_below(15) as i32 - 7) * n as i32 } else { 0 })
        .collect();
    values[0] = 3 << 20;
    values
}

/// How words are made of integers.
type Words = fn(u32) -> u32;

fn as_float(integer: u32) -> u32 {
    (integer as i32 as f32).to_bits()
}

/// The other way round: our code of a block is libzfp's code of the block that has the same coefficients in libzfp's
/// order. Floats are left out where the two blocks have other forms, or a scale overflows.
#[test]
fn equal_coefficients_have_equal_codes() {
    let cases: [(u32, u32, Values, Words); 5] = [
        (INTEGERS, EXACT, of_one_magnitude, |integer| integer),
        (INTEGERS, LOSSY, small, |integer| integer),
        (FLOATS, EXACT, any, flip),
        (FLOATS, EXACT, about_one_value, as_float),
        (FLOATS, LOSSY, about_one_value, as_float),
    ];
    let mut random = Random::new(9);
    let mut comparison = Comparison::new(lib());
    for (dimension, count) in [(1, 1_000), (2, 1_000), (3, 500), (4, 200)] {
        for (kind, mode, values, words) in cases {
            let step = if mode == EXACT { sums } else { unlift };
            let block = |coefficients: &[u32]| -> Vec<u32> {
                from_coefficients(coefficients, dimension, step).into_iter().map(words).collect()
            };
            let mut compared = 0;
            for _ in 0..rounds(count) {
                let longest = longest_code(dimension) as u32;
                let width = if mode == EXACT { longest } else { random.between(16, longest) };
                let p = Params {
                    kind,
                    dimension,
                    mode,
                    planes: random.between(1, 32),
                    width,
                    lowest: MIN_LOWEST,
                };
                let c = checked(&p);
                let coefficients: Vec<u32> =
                    values(&mut random, c.block_len()).into_iter().map(|v| to_negabinary(v as u32)).collect();
                let ours = block(&coefficients);
                let libzfps = block(&comparison.lib.orders(dimension).to_ours(&coefficients));
                let form = |words| code::encode(&c, words).bits.into_iter().take(2);
                let overflows = scale_overflows(&ours) || scale_overflows(&libzfps);
                if kind == FLOATS && (overflows || form(&ours).ne(form(&libzfps))) {
                    continue;
                }
                let slot = comparison.write(&p, &ours).ours.expect("the block fits");
                let theirs = comparison.lib.encode(shape(&c), setting(&c), &libzfps);
                assert_eq!(slot, padded(&theirs, c.width), "{p:?} {ours:x?}");
                compared += 1;
            }
            assert!(2 * compared > rounds(count), "{compared} blocks in dimension {dimension}");
        }
    }
    assert!(comparison.failures.is_empty(), "{:?}", comparison.failures);
}
