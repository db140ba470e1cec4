//! The inputs.

use random::Random;

/// Integers of both signs, of every length and for every number of low bits that rounding may drop.
pub fn integers(random: &mut Random) -> Vec<u32> {
    let mut all = vec![0, 1 << 31];
    for length in 1..=31 {
        for dropped in 0..=length {
            for high in highs(random, length) {
                for low in lows(random, dropped) {
                    let kept = high >> dropped << dropped;
                    let magnitude = kept | low;
                    all.push(magnitude);
                    all.push(magnitude.wrapping_neg());
                }
            }
        }
    }
    all
}

/// Numbers of that many bits with the top bit set: the least, the greatest, and some between.
fn highs(random: &mut Random, length: u32) -> [u32; 5] {
    let top = 1 << (length - 1);
    let ones = top | (top - 1);
    [top, ones, ones & 0x5555_5555 | top, ones & 0xAAAA_AAAA | top, random.word() & ones | top]
}

/// What may stand in the bits that are dropped: nothing, the least, a half, its neighbours, all, any.
fn lows(random: &mut Random, dropped: u32) -> [u32; 7] {
    let mask = ((1u64 << dropped) - 1) as u32;
    let half = ((1u64 << dropped) >> 1) as u32;
    let any = random.word();
    [0, 1, half.wrapping_sub(1), half, half + 1, mask, any].map(|low| low & mask)
}

/// Fractions of 23 bits: single bits, runs of ones from both ends, and some others.
pub fn fractions(random: &mut Random) -> Vec<u32> {
    let mask = (1 << 23) - 1;
    let mut all = vec![0, mask, 0x2AAAAA, 0x555555];
    for k in 0..23 {
        all.extend([1 << k, (1 << k) - 1, mask << k & mask]);
    }
    all.extend((0..20).map(|_| random.word() & mask));
    all
}
