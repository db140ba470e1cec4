//! Blocks stored in the slots of an archive, and read from them.

use crate::data::{DIMENSIONS, Data, blocks, blocks_in_archive};
use crate::timing::{Times, Work, measure, spread};
use std::hint::black_box;
use windlassow::{Dimension, Kind, MIN_LOWEST, Mode, Params};
use zfp::bits::{bytes_of, padded};
use zfp::expected::{Code, written};
use zfp::libzfp::{Libzfp, Stream, checked};

/// P of the lossy blocks: the width alone cuts them, or the lowest exponent.
const PLANES: u32 = 32;

/// The lowest exponent of half a tenth of a degree.
const HALF_A_TENTH: i32 = -5;

/// One line of the table: parameters and blocks.
struct Case {
    kind: Kind,
    dimension: Dimension,
    mode: Mode,
    width: u32,
    lowest: i32,
    words: Vec<u32>,
}

impl Case {
    /// Slots that every exact block fits, or of 16 bits a value (4 words) and of 8 (more words) for lossy ones.
    fn new(kind: Kind, dimension: Dimension, mode: Mode, data: Data) -> Case {
        let n = dimension.block_len() as u32;
        let width = match (mode, kind, dimension) {
            (Mode::Exact, Kind::Integers, _) => 33 * n + 4,
            (Mode::Exact, Kind::Floats, _) => 33 * n + 14,
            (Mode::Lossy, _, Dimension::One) => 16 * n,
            (Mode::Lossy, _, _) => 8 * n,
        };
        let words = blocks(kind, dimension, data, blocks_in_archive(width as usize));
        Case { kind, dimension, mode, width, lowest: MIN_LOWEST, words }
    }

    /// Smooth lossy floats down to a lowest exponent, in slots that cut nothing.
    fn within(dimension: Dimension, lowest: i32) -> Case {
        let (kind, mode) = (Kind::Floats, Mode::Lossy);
        let width = 33 * dimension.block_len() as u32 + 14;
        let words = blocks(kind, dimension, Data::Smooth, blocks_in_archive(width as usize));
        Case { kind, dimension, mode, width, lowest, words }
    }

    fn params(&self) -> Params {
        Params::new(self.kind, self.dimension, self.mode, PLANES, self.width).with_lowest(self.lowest)
    }

    fn reference_params(&self) -> reference::Params {
        reference::Params {
            kind: self.kind as u32,
            dimension: 1 + self.dimension as u32,
            mode: self.mode as u32,
            planes: PLANES,
            width: self.width,
            lowest: self.lowest,
        }
    }

    fn archive_len(&self) -> usize {
        (self.count() * self.width as usize).div_ceil(8)
    }

    fn block_len(&self) -> usize {
        self.dimension.block_len()
    }

    /// The number of blocks.
    fn count(&self) -> usize {
        self.words.len() / self.block_len()
    }

    fn store(&self, archive: &mut [u8]) {
        for (slot, words) in self.words.chunks_exact(self.block_len()).enumerate() {
            black_box(windlassow::store(self.params(), archive, slot, words)).expect("the block fits");
        }
    }

    fn reference_store(&self, archive: &mut [u8]) {
        let params = self.reference_params();
        for (slot, words) in self.words.chunks_exact(self.block_len()).enumerate() {
            assert_eq!(black_box(reference::store(&params, archive, slot, words)).answer, 0);
        }
    }

    fn read(&self, archive: &[u8], words: &mut [u32]) {
        for (slot, words) in words.chunks_exact_mut(self.block_len()).enumerate() {
            black_box(windlassow::read(self.params(), archive, slot, words)).expect("the slot is good");
        }
    }

    fn reference_read(&self, archive: &[u8], words: &mut [u32]) {
        let params = self.reference_params();
        for (slot, words) in words.chunks_exact_mut(self.block_len()).enumerate() {
            assert_eq!(black_box(reference::read(&params, archive, slot, words)).answer, 0);
        }
    }

    /// An archive that the proved library and the reference write alike.
    fn archive(&self) -> Vec<u8> {
        let mut archive = vec![0; self.archive_len()];
        let mut expected = archive.clone();
        self.store(&mut archive);
        self.reference_store(&mut expected);
        assert!(archive == expected, "the reference stores otherwise");
        archive
    }

    /// libzfp's stream of the blocks: the same slots, with the coefficients in libzfp's order.
    fn stream(&self, lib: Option<&Libzfp>) -> Option<Stream> {
        let lib = lib?;
        let params = checked(&self.reference_params());
        let mut stream = lib.stream(&self.reference_params(), self.count());
        stream.encode(&self.words);
        let slots = self.words.chunks_exact(self.block_len()).flat_map(|words| {
            let Code::Known(code) = written(&params, words, Some(lib.orders(params.dimension))) else {
                unreachable!("the values are neither tiny nor infinite")
            };
            padded(&code, params.width)
        });
        let expected = bytes_of(&slots.collect::<Vec<_>>());
        assert!(stream.bytes(expected.len()) == expected, "libzfp stores otherwise");
        Some(stream)
    }

    /// The time of a store by each program.
    fn time_store(&self, lib: Option<&Libzfp>) -> Times {
        let (mut ours, mut theirs) = (self.archive(), self.archive());
        let mut programs: Vec<Work> =
            vec![Box::new(|| self.store(&mut ours)), Box::new(|| self.reference_store(&mut theirs))];
        if let Some(mut stream) = self.stream(lib) {
            programs.push(Box::new(move || stream.encode(black_box(&self.words))));
        }
        measure(&mut programs, self.count())
    }

    /// The time of a read by each program.
    fn time_read(&self, lib: Option<&Libzfp>) -> Times {
        let archive = self.archive();
        let mut buffers = vec![vec![0u32; self.words.len()]; 3];
        let [ours, theirs, libzfps] = &mut buffers[..] else { unreachable!() };
        let mut programs: Vec<Work> = vec![
            Box::new(|| self.read(black_box(&archive), ours)),
            Box::new(|| self.reference_read(black_box(&archive), theirs)),
        ];
        if let Some(mut stream) = self.stream(lib) {
            programs.push(Box::new(move || stream.decode(libzfps)));
        }
        let times = measure(&mut programs, self.count());
        drop(programs);
        assert!(buffers[0] == buffers[1], "the reference reads otherwise");
        if self.mode == Mode::Exact {
            let all_back = buffers[..times.programs()].iter().all(|words| words == &self.words);
            assert!(all_back, "an exact block does not come back");
        }
        times
    }
}

fn row(name: &str, times: &Times) {
    let (mut time, mut ratio) = ("-".to_string(), "-".to_string());
    if times.programs() == 3 {
        (time, ratio) = (format!("{:.0}", times.median(2)), spread(times.ratio(0, 2)));
    }
    let (ours, theirs) = (times.median(0), times.median(1));
    println!("{name:<37} {ours:>7.0} {theirs:>7.0} {time:>7}   {:<22} {ratio}", spread(times.ratio(0, 1)));
}

/// The table of stores and reads: every kind, mode and dimension.
pub fn table(lib: Option<&Libzfp>) {
    println!("Blocks, nanoseconds a block, 256 blocks in an archive, or as many as 65,536 bytes take");
    println!(
        "  exact: slots of 33N + 4 or 33N + 14 bits; lossy: P = 32, 16 bits a value (4 words), 8 (more words);\n  \
         down to 2^-5: lossy floats, q = -5, 33N + 14 bits"
    );
    println!(
        "{:<37} {:>7} {:>7} {:>7}   {:<22} proved/libzfp",
        "", "proved", "ref.", "libzfp", "proved/reference"
    );
    for mode in [Mode::Exact, Mode::Lossy] {
        for kind in [Kind::Integers, Kind::Floats] {
            for dimension in DIMENSIONS {
                for data in [Data::Smooth, Data::Random] {
                    let case = Case::new(kind, dimension, mode, data);
                    let name =
                        format!("{mode:?} {kind:?} {:>3} words {}", dimension.block_len(), data.name());
                    rows(&name.to_lowercase(), &case, lib);
                }
            }
        }
    }
    for dimension in DIMENSIONS {
        let name = format!("down to 2^-5   {:>3} words smooth", dimension.block_len());
        rows(&name, &Case::within(dimension, HALF_A_TENTH), lib);
    }
    println!();
}

fn rows(name: &str, case: &Case, lib: Option<&Libzfp>) {
    row(&format!("{name} store"), &case.time_store(lib));
    row(&format!("{name} read"), &case.time_read(lib));
}
