//! Archives copied to full slots, beside reading their slots.

use crate::data::{DIMENSIONS, Data, blocks, blocks_in_archive};
use crate::timing::{Work, measure, spread};
use std::hint::black_box;
use windlassow::{Dimension, Kind, Mode, Params};

/// An archive of full slots and the words of its blocks.
struct Archive {
    params: Params,
    kind: Kind,
    dimension: Dimension,
    words: Vec<u32>,
    bytes: Vec<u8>,
}

impl Archive {
    fn new(kind: Kind, dimension: Dimension) -> Archive {
        let params = Params::new(kind, dimension, Mode::Exact, 32, 0);
        let count = blocks_in_archive(params.slot_bits().expect("the parameters are good"));
        let words = blocks(kind, dimension, Data::Smooth, count);
        let mut bytes = vec![0; params.archive_len(count).expect("the archive is short enough")];
        for (slot, words) in words.chunks_exact(dimension.block_len()).enumerate() {
            windlassow::store(params, &mut bytes, slot, words).expect("the block fits");
        }
        Archive { params, kind, dimension, words, bytes }
    }

    /// The number of slots.
    fn count(&self) -> usize {
        self.words.len() / self.dimension.block_len()
    }

    fn copy(&self, new: &mut [u8]) {
        let copied = windlassow::copy(self.params, black_box(&self.bytes), new);
        assert_eq!(copied, Ok(self.count()));
    }

    fn reference_copy(&self, new: &mut [u8]) {
        let params = reference::Params {
            kind: self.kind as u32,
            dimension: 1 + self.dimension as u32,
            mode: Mode::Exact as u32,
            planes: 32,
            width: 0,
            lowest: self.params.lowest(),
        };
        assert_eq!(reference::copy(&params, black_box(&self.bytes), new).answer, 0);
    }

    fn read(&self, words: &mut [u32]) {
        for (slot, words) in words.chunks_exact_mut(self.dimension.block_len()).enumerate() {
            black_box(windlassow::read(self.params, black_box(&self.bytes), slot, words))
                .expect("it is good");
        }
    }

    /// The row of a kind and dimension. Both copies are the archive itself.
    fn row(&self) {
        let (mut new, mut other) = (vec![0; self.bytes.len()], vec![0; self.bytes.len()]);
        let mut words = vec![0; self.words.len()];
        let mut programs: Vec<Work> = vec![
            Box::new(|| self.copy(&mut new)),
            Box::new(|| self.read(&mut words)),
            Box::new(|| self.reference_copy(&mut other)),
        ];
        let times = measure(&mut programs, self.count());
        drop(programs);
        assert!(new == self.bytes && other == self.bytes && words == self.words, "a copy is another archive");
        let kind = format!("{:?}", self.kind).to_lowercase();
        let name = format!("{kind:<8} {:>3} words", self.dimension.block_len());
        let [copy, read, theirs] = [0, 1, 2].map(|program| times.median(program));
        let (to_read, to_theirs) = (spread(times.ratio(0, 1)), spread(times.ratio(0, 2)));
        println!("{name:<19} {copy:>7.0} {read:>7.0} {theirs:>7.0}   {to_read:<22} {to_theirs}");
    }
}

/// The table of copies.
pub fn table() {
    println!("Copies, nanoseconds a slot: smooth exact archives of full slots, 33N + 14 bits, to new ones");
    println!(
        "{:<19} {:>7} {:>7} {:>7}   {:<22} proved/reference",
        "", "copy", "read", "ref.", "copy/read of each slot"
    );
    for kind in [Kind::Integers, Kind::Floats] {
        DIMENSIONS.into_iter().for_each(|dimension| Archive::new(kind, dimension).row());
    }
    println!();
}
