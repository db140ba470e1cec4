//! The numbers that tests and measurements draw, the same in every run with the same seed, and how long a test runs.

/// Marsaglia's xorshift generator of 64 bits, multiplied at the end.
pub struct Random(u64);

impl Random {
    /// A generator of its own for every test, with a fixed seed.
    pub fn new(seed: u64) -> Random {
        Random(seed.wrapping_mul(0x9E37_79B9_7F4A_7C15) | 1)
    }

    /// 64 bits.
    pub fn bits(&mut self) -> u64 {
        self.0 ^= self.0 >> 12;
        self.0 ^= self.0 << 25;
        self.0 ^= self.0 >> 27;
        self.0.wrapping_mul(0x2545_F491_4F6C_DD1D)
    }

    /// 32 bits.
    pub fn word(&mut self) -> u32 {
        (self.bits() >> 32) as u32
    }

    /// Eight bits.
    pub fn byte(&mut self) -> u8 {
        (self.bits() >> 56) as u8
    }

    /// So many bytes.
    pub fn bytes(&mut self, len: usize) -> Vec<u8> {
        (0..len).map(|_| self.byte()).collect()
    }

    /// A number from 0 to end - 1.
    pub fn below(&mut self, end: usize) -> usize {
        (self.word() as usize * end) >> 32
    }

    /// The same, as a word.
    pub fn word_below(&mut self, end: u32) -> u32 {
        self.below(end as usize) as u32
    }

    /// A word from `first` to `last`.
    pub fn between(&mut self, first: u32, last: u32) -> u32 {
        first + self.word_below(last - first + 1)
    }

    /// A number from 0 up to 1.
    pub fn part(&mut self) -> f64 {
        (self.bits() >> 11) as f64 / (1u64 << 53) as f64
    }

    /// True once in `often` times.
    pub fn once_in(&mut self, often: usize) -> bool {
        self.below(often) == 0
    }

    /// One of these.
    pub fn pick<T: Copy>(&mut self, from: &[T]) -> T {
        from[self.below(from.len())]
    }
}

/// Whether tests run for minutes: `WINDLASSOW_LONG=1`.
pub fn is_long() -> bool {
    std::env::var("WINDLASSOW_LONG").is_ok_and(|value| value == "1")
}

/// The number of rounds: as given, forty times as many in a long run.
pub fn rounds(count: usize) -> usize {
    if is_long() { 40 * count } else { count }
}
