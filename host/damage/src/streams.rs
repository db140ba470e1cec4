//! Damaged FPC streams.

use crate::{Tally, tenths};
use random::Random;
use windlassow::{fpc_read, fpc_write};

/// The doubles of a run.
const DOUBLES: usize = 100;

/// The entries of each table.
const TABLE: usize = 256;

/// One byte of each stream becomes another.
pub fn stream_bytes_changed(streams: usize) -> Tally {
    let mut random = Random::new(5);
    let mut tally = Tally::default();
    for _ in 0..streams {
        count(&mut random, &mut tally);
    }
    tally
}

fn count(random: &mut Random, tally: &mut Tally) {
    let (mut f, mut d) = ([0; TABLE], [0; TABLE]);
    let run: Vec<u64> =
        tenths(random, DOUBLES).iter().map(|tenths| (f64::from(*tenths) / 10.0).to_bits()).collect();
    let mut stream = [0; 17 * DOUBLES.div_ceil(2)];
    let len = fpc_write(&mut f, &mut d, &run, &mut stream).expect("there is room for every run");
    stream[random.below(len)] ^= random.between(1, 255) as u8;
    // A damaged stream can be that of a longer run: two doubles a byte.
    let mut back = [0; 2 * 17 * DOUBLES.div_ceil(2)];
    tally.damaged += 1;
    match fpc_read(&mut f, &mut d, &stream[..len], &mut back) {
        Err(refusal) => {
            assert_eq!(refusal.number(), 23);
            tally.refused += 1;
        }
        Ok(doubles) => tally.other += usize::from(back[..doubles] != run),
    }
}
