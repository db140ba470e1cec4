//! FPC streams read in pieces, beside reading them as a whole.

use crate::data::{Data, doubles};
use crate::timing::{Work, measure, spread};
use std::hint::black_box;
use windlassow::Transfer;

/// The doubles of a run.
const RUN_LEN: usize = 4096;

/// The entries of a table.
const SIZE: usize = 1024;

/// The bytes of a piece; the whole stream as one is measured too.
const PIECES: [usize; 4] = [1, 16, 256, 4096];

/// A run of doubles and its stream.
struct Stream {
    run: Vec<u64>,
    bytes: Vec<u8>,
}

impl Stream {
    fn new(run: Vec<u64>) -> Stream {
        let (mut f, mut d, mut bytes) = ([0; SIZE], [0; SIZE], vec![0; 17 * run.len().div_ceil(2)]);
        let len = windlassow::fpc_write(&mut f, &mut d, &run, &mut bytes).expect("there is room");
        bytes.truncate(len);
        Stream { run, bytes }
    }

    fn read(&self, f: &mut [u64], d: &mut [u64], back: &mut [u64]) {
        let read = windlassow::fpc_read(f, d, black_box(&self.bytes), back);
        assert_eq!(black_box(read), Ok(RUN_LEN));
    }

    /// Each piece gives its doubles behind those of the pieces before it.
    fn read_in_pieces(&self, len: usize, f: &mut [u64], d: &mut [u64], back: &mut [u64]) {
        let mut transfer = Transfer::open(f, d).expect("the tables are good");
        for piece in black_box(&self.bytes).chunks(len) {
            let given = transfer.doubles();
            black_box(transfer.feed(piece, &mut back[given..])).expect("the piece is good");
        }
        assert_eq!(transfer.finish(), Ok(RUN_LEN));
    }

    /// The rows of a stream: pieces of every length, and in the same rounds the reader of whole streams.
    fn rows(&self, name: &str) {
        let whole = self.bytes.len();
        let mut lens: Vec<usize> = PIECES.into_iter().filter(|&len| len < whole).collect();
        lens.push(whole);
        let mut buffers = vec![([0; SIZE], [0; SIZE], vec![0; RUN_LEN + 2 * whole]); lens.len() + 1];
        let mut programs: Vec<Work> = Vec::new();
        for (place, (f, d, back)) in buffers.iter_mut().enumerate() {
            programs.push(match lens.get(place) {
                Some(&len) => Box::new(move || self.read_in_pieces(len, f, d, back)),
                None => Box::new(move || self.read(f, d, back)),
            });
        }
        let times = measure(&mut programs, RUN_LEN);
        drop(programs);
        let is_run = |back: &[u64]| back[..RUN_LEN] == self.run;
        assert!(buffers.iter().all(|(_, _, back)| is_run(back)), "a run does not come back");
        let reader = lens.len();
        for (place, &len) in lens.iter().enumerate() {
            let piece = if len < whole { format!("pieces of {len:>4} bytes") } else { "one piece".into() };
            let (pieces, read) = (times.median(place), times.median(reader));
            let ratio = spread(times.ratio(place, reader));
            println!("{name:<8} {piece:<28} {pieces:>7.1} {read:>7.1} {:>7.0}   {ratio}", 8e3 / pieces);
        }
    }
}

/// The table of streams in pieces.
pub fn table() {
    println!(
        "FPC in pieces, nanoseconds a double, runs of {RUN_LEN} doubles, tables of {SIZE}; read: all at once"
    );
    println!("{:<37} {:>7} {:>7} {:>7}   pieces/read", "", "pieces", "read", "MB/s");
    Stream::new(vec![4.5f64.to_bits(); RUN_LEN]).rows("constant");
    for data in [Data::Smooth, Data::Random] {
        Stream::new(doubles(data, RUN_LEN)).rows(data.name());
    }
    println!();
}
