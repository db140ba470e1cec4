//! Inputs for the listing program.

use random::Random;

/// The numbers of a first line.
#[derive(Clone, Copy)]
pub struct First {
    pub kind: u32,
    pub dimension: u32,
    pub mode: u32,
    pub planes: u32,
    pub width: u32,
    /// q + 300.
    pub lowest: u32,
}

/// The first line's last number with which all planes are kept, q = -300, and the largest, q = 300.
pub const ALL_EXPONENTS: u32 = 0;
pub const MOST: u32 = 600;

/// Widths with all sorts of spare bits, those that every exact block fits and those just below.
pub const WIDTHS: [u32; 26] = [
    0, 16, 17, 23, 24, 25, 31, 33, 48, 63, 131, 135, 136, 146, 531, 532, 541, 542, 2115, 2116, 2125, 2126,
    8451, 8452, 8461, 8462,
];

impl First {
    /// Numbers of which none is refused.
    pub fn good(random: &mut Random) -> First {
        First {
            kind: random.pick(&[0, 1]),
            dimension: random.pick(&[1, 1, 2, 2, 3, 4]),
            mode: random.pick(&[0, 1]),
            planes: if random.once_in(2) { 32 } else { 1 + random.below(32) as u32 },
            width: match random.below(4) {
                0 | 1 => random.pick(&WIDTHS),
                2 => random.between(16, 1_024),
                _ => random.between(16, 8_462),
            },
            // Words of most characters have exponents around 0, and so 32 planes or none end at a q near it.
            lowest: match random.below(3) {
                0 => ALL_EXPONENTS,
                1 => random.between(260, 340),
                _ => random.between(0, MOST),
            },
        }
    }

    /// Numbers of which some are mostly refused.
    pub fn odd(random: &mut Random) -> First {
        let mut first = First::good(random);
        for _ in 0..1 + random.below(2) {
            match random.below(6) {
                0 => first.kind = random.pick(&[2, 3, 0x10, 0xff]),
                1 => first.dimension = random.pick(&[0, 5, 6, 0x11, 0xff]),
                2 => first.mode = random.pick(&[2, 3, 0x80, 0xff]),
                3 => first.planes = random.pick(&[0, 33, 64, 0xff]),
                4 => first.lowest = random.pick(&[601, 602, 900, 0x7fff, 0x8000, 0xffff]),
                _ => first.width = random.pick(&[1, 15, 8463, 0x4000, 0xffff]),
            }
        }
        first
    }

    /// The line, with its newline.
    pub fn line(self) -> Vec<u8> {
        let First { kind, dimension, mode, planes, width, lowest } = self;
        format!("{kind:02x}{dimension:02x}{mode:02x}{planes:02x}{width:04x}{lowest:04x}\n").into_bytes()
    }

    /// The words of a block; 4 where the dimension is none.
    pub fn block_len(self) -> usize {
        if (1..=4).contains(&self.dimension) { 4usize.pow(self.dimension) } else { 4 }
    }
}

/// A block's line, with its newline.
pub fn line_of(words: &[u32]) -> Vec<u8> {
    let digits: String = words.iter().map(|word| format!("{word:08x}")).collect();
    (digits + "\n").into_bytes()
}

/// Words of some character: any, small, close to each other, or special ones.
pub fn block(random: &mut Random, len: usize) -> Vec<u32> {
    let character = random.below(6);
    let shift = random.below(32);
    let base = random.word();
    let special = [0, 0, 1, u32::MAX, 0x8000_0000, 0x3F80_0000, 0x7F7F_FFFF, 0x7F80_0000, 0x7FC0_0001];
    (0..len)
        .map(|place| match character {
            0 => random.word(),
            1 => (random.word() as i32 >> shift) as u32,
            2 => base ^ (random.word() >> shift),
            3 => random.pick(&special),
            4 => (place as f32 * 0.25 + shift as f32).to_bits(),
            _ => base.wrapping_add(place as u32 * (shift as u32)),
        })
        .collect()
}

/// A good line of a block.
pub fn good_line(random: &mut Random, first: First) -> Vec<u8> {
    line_of(&block(random, first.block_len()))
}

/// Bytes that are no digits, beside those that are easily taken for some.
pub const WRONG: &[u8] = b"AFGg/:@` \r\t\0\x0b\x1f-_.xX\x7f\x80\xb0\xe1\xff";

/// Changes a line so that it is ill-formed.
pub fn damaged(random: &mut Random, mut line: Vec<u8>) -> Vec<u8> {
    let end = line.len() - 1;
    let at = random.below(end);
    match random.below(9) {
        0 | 1 => line[at] = random.pick(WRONG),
        2 => line.insert(at, b'0'),
        3 => drop(line.remove(at)),
        4 => line.insert(at, b'\n'),
        5 => line.insert(end, b'\r'),
        6 => line = b"\n".to_vec(),
        7 => line[at].make_ascii_uppercase(),
        _ => line = [vec![b'7'; random.below(2 * line.len())], b"\n".to_vec()].concat(),
    }
    line
}

/// A good or a damaged line for a block.
pub fn any_line(random: &mut Random, first: First) -> Vec<u8> {
    match random.below(12) {
        0 => {
            let line = good_line(random, first);
            damaged(random, line)
        }
        // The length of another dimension.
        1 if random.once_in(3) => {
            let mut others = vec![4, 16, 64, 256];
            others.retain(|&len| len != first.block_len());
            let len = random.pick(&others);
            line_of(&block(random, len))
        }
        _ => good_line(random, first),
    }
}

/// A first line and up to so many lines for blocks. The last may lack its newline.
pub fn input(random: &mut Random, most: usize) -> Vec<u8> {
    let first = if random.once_in(12) { First::odd(random) } else { First::good(random) };
    let mut input = first.line();
    if random.once_in(20) {
        input = damaged(random, input);
    }
    for _ in 0..random.below(most + 1) {
        input.extend(any_line(random, first));
    }
    if random.once_in(8) {
        input.truncate(input.len() - 1 - random.below(20).min(input.len() - 1));
    }
    input
}
