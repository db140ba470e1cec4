//! What the tests and tables of several packages use: the papers' numbers, guarded buffers, a count of answers, how numbers
//! are shown, and what was worked out by hand.

pub mod by_hand;

use std::ops::{Deref, DerefMut};
use std::path::{Path, PathBuf};

/// Kind 0.
pub const INTEGERS: u32 = 0;
/// Kind 1.
pub const FLOATS: u32 = 1;
/// Mode 0.
pub const LOSSY: u32 = 0;
/// Mode 1.
pub const EXACT: u32 = 1;
/// The lowest q. With it all planes of every block are kept.
pub const MIN_LOWEST: i32 = -300;
/// The highest q. With it no plane of any block is kept.
pub const MAX_LOWEST: i32 = 300;

/// The repository's folder.
pub fn repository() -> PathBuf {
    let package = Path::new(env!("CARGO_MANIFEST_DIR"));
    package.ancestors().nth(2).expect("the package is at host/testing").to_path_buf()
}

/// A number with a comma before its last three digits, and before the three above them.
pub fn grouped(number: usize) -> String {
    let digits = number.to_string();
    let comma = |place: usize| place > 0 && (digits.len() - place) % 3 == 0;
    digits
        .chars()
        .enumerate()
        .flat_map(|(place, digit)| comma(place).then_some(',').into_iter().chain([digit]))
        .collect()
}

/// The bits of a text of 0s and 1s, spaces left out.
pub fn bits(text: &str) -> Vec<bool> {
    text.chars().filter(|digit| *digit != ' ').map(|digit| digit == '1').collect()
}

/// The pieces of a stream that is cut at these places: bit k for a cut after byte k.
pub fn cut_at(stream: &[u8], places: usize) -> Vec<&[u8]> {
    let mut pieces = Vec::new();
    let mut start = 0;
    for end in 1..=stream.len() {
        if end == stream.len() || places >> (end - 1) & 1 == 1 {
            pieces.push(&stream[start..end]);
            start = end;
        }
    }
    pieces
}

/// A buffer with places on both sides of it that no call may touch.
pub struct Guarded<T> {
    all: Vec<T>,
    before: Vec<T>,
    len: usize,
}

/// The places on each side.
const GUARD: usize = 24;

impl<T: Copy + PartialEq> Guarded<T> {
    /// A buffer that holds `content`, between copies of `guard`.
    pub fn new(content: &[T], guard: T) -> Guarded<T> {
        let mut all = vec![guard; GUARD];
        all.extend_from_slice(content);
        all.resize(all.len() + GUARD, guard);
        Guarded { before: all.clone(), all, len: content.len() }
    }

    /// Whether only the buffer itself can have changed.
    pub fn is_intact(&self) -> bool {
        let end = GUARD + self.len;
        self.all[..GUARD] == self.before[..GUARD] && self.all[end..] == self.before[end..]
    }

    /// Whether nothing at all has changed.
    pub fn is_unchanged(&self) -> bool {
        self.all == self.before
    }
}

impl<T> Deref for Guarded<T> {
    type Target = [T];

    fn deref(&self) -> &[T] {
        &self.all[GUARD..GUARD + self.len]
    }
}

impl<T> DerefMut for Guarded<T> {
    fn deref_mut(&mut self) -> &mut [T] {
        &mut self.all[GUARD..GUARD + self.len]
    }
}

/// How often each answer was given.
pub struct Answers([usize; 32]);

impl Answers {
    /// None so far.
    pub fn none() -> Answers {
        Answers([0; 32])
    }

    /// One more of this number.
    pub fn count(&mut self, answer: u32) {
        self.0[answer as usize] += 1;
    }

    /// Fails if one of these answers was never given: then the test did not reach it.
    pub fn must_include(&self, answers: &[u32]) {
        for &answer in answers {
            assert!(self.0[answer as usize] > 0, "no call of this test gave the answer {answer}");
        }
    }
}
