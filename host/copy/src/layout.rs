//! Where the slots lie in the old and in the new file.

use windlassow::{MAX_ARCHIVE_LEN, Params, Refusal};

/// One row of slots in each file: slot k starts at bit k times the bits of a slot.
#[derive(Clone, Copy, Debug)]
pub struct Layout {
    /// W, the bits of an old slot.
    pub old_bits: u64,
    /// 33N + 14, the bits of a new slot.
    pub new_bits: u64,
    /// The whole slots of the old file.
    pub slots: u64,
    /// The bits after the last of them.
    pub rest: u64,
}

/// Slots that one call copies.
#[derive(Clone, Copy, Debug)]
pub struct Run {
    pub first: u64,
    pub slots: u64,
}

impl Layout {
    /// The layout of an old file of `len` bytes.
    pub fn new(params: Params, len: u64) -> Result<Layout, Refusal> {
        let old_bits = params.slot_bits()? as u64;
        let new_bits = params.with_width(0).slot_bits()? as u64;
        let bits = 8 * u128::from(len);
        let slots = (bits / u128::from(old_bits)) as u64;
        let rest = (bits % u128::from(old_bits)) as u64;
        Ok(Layout { old_bits, new_bits, slots, rest })
    }

    /// All slots in runs. The slots of a run are a multiple of 8, so that it begins at a whole byte in both files, and take
    /// at most 65,536 bytes in either. The last run takes what is left.
    pub fn runs(&self) -> impl Iterator<Item = Run> + use<> {
        let most = 8 * (MAX_ARCHIVE_LEN as u64 / self.old_bits.max(self.new_bits));
        let slots = self.slots;
        (0..slots).step_by(most as usize).map(move |first| Run { first, slots: most.min(slots - first) })
    }

    /// The byte of the old file at which a run begins.
    pub fn old_start(&self, run: Run) -> u64 {
        bytes(run.first, self.old_bits)
    }

    /// The bytes of a run's slots in the old file.
    pub fn old_run_len(&self, run: Run) -> usize {
        bytes(run.slots, self.old_bits) as usize
    }

    /// The bytes of a run's slots in the new file.
    pub fn new_run_len(&self, run: Run) -> usize {
        bytes(run.slots, self.new_bits) as usize
    }

    /// The bytes of the new file.
    pub fn new_len(&self) -> u64 {
        bytes(self.slots, self.new_bits)
    }
}

/// The bytes of so many slots. No file is as long as the number that stands for too many.
fn bytes(slots: u64, bits: u64) -> u64 {
    u64::try_from((u128::from(slots) * u128::from(bits)).div_ceil(8)).unwrap_or(u64::MAX)
}

#[cfg(test)]
mod tests {
    use super::*;
    use windlassow::{Dimension, MAX_WIDTH, MIN_WIDTH};

    const DIMENSIONS: [Dimension; 4] = [Dimension::One, Dimension::Two, Dimension::Three, Dimension::Four];

    /// Every width in every dimension, with a file of some runs: they follow each other in both files, each begins at a
    /// whole byte, and none is longer than a call takes.
    #[test]
    fn runs_fit_a_call_and_begin_at_bytes() {
        for dimension in DIMENSIONS {
            for width in (MIN_WIDTH..=MAX_WIDTH).chain([0]) {
                let params = Params::exact_floats(dimension).with_width(width);
                let layout = Layout::new(params, 200_003).unwrap();
                let mut next = 0;
                for run in layout.runs() {
                    assert_eq!(run.first, next);
                    assert!(run.first * layout.old_bits % 8 == 0 && run.first * layout.new_bits % 8 == 0);
                    assert!(layout.old_run_len(run).max(layout.new_run_len(run)) <= MAX_ARCHIVE_LEN);
                    next += run.slots;
                }
                assert_eq!(next, layout.slots);
                assert_eq!(layout.slots * layout.old_bits + layout.rest, 8 * 200_003);
                assert!(layout.rest < layout.old_bits);
            }
        }
    }

    /// The longest file there can be has numbers too.
    #[test]
    fn nothing_overflows() {
        let params = Params::exact_floats(Dimension::Four).with_width(MIN_WIDTH);
        let layout = Layout::new(params, i64::MAX as u64).unwrap();
        assert_eq!((layout.slots, layout.rest), (i64::MAX as u64 / 2, 8));
        assert_eq!(layout.new_len(), u64::MAX);
        let last = Run { first: layout.slots - 1, slots: 1 };
        assert_eq!(layout.old_start(last), i64::MAX as u64 - 3);
    }
}
