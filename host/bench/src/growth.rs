//! How the proved library's cost grows: with N, the planes, the width, the archive and the number of doubles.
//!
//! All points of a table are measured in one set of rounds, so that what disturbs one disturbs all.

use crate::data::{DIMENSIONS, Data, blocks, blocks_in_archive, doubles};
use crate::timing::{Times, Work, measure};
use std::hint::black_box;
use windlassow::{Dimension, Kind, MAX_ARCHIVE_LEN, Params};

/// Random integers stored in an archive from some slot on, and read from there.
struct Point {
    params: Params,
    len: usize,
    first: usize,
    words: Vec<u32>,
    archive: Vec<u8>,
    back: Vec<u32>,
}

impl Point {
    fn new(params: Params, dimension: Dimension, archive_len: usize, first: usize) -> Point {
        let width = params.slot_bits().expect("the parameters are good");
        let (len, count) = (dimension.block_len(), blocks_in_archive(width));
        let words = blocks(Kind::Integers, dimension, Data::Random, count);
        Point { params, len, first, words, archive: vec![0; archive_len], back: vec![0; len] }
    }

    /// The number of blocks.
    fn count(&self) -> usize {
        self.words.len() / self.len
    }

    fn store(&mut self) {
        for (slot, words) in self.words.chunks_exact(self.len).enumerate() {
            let reply = windlassow::store(self.params, &mut self.archive, self.first + slot, words);
            black_box(reply).expect("the block fits");
        }
    }

    fn read(&mut self) {
        for slot in 0..self.count() {
            let reply = windlassow::read(self.params, &self.archive, self.first + slot, &mut self.back);
            black_box(reply).expect("the slot is good");
        }
    }
}

/// Exact integers in the narrowest slots that every block fits, 33N + 4 bits.
fn narrowest(dimension: Dimension) -> Params {
    Params::exact_integers(dimension).with_width(33 * dimension.block_len() as u32 + 4)
}

/// The medians of a store and of a read at each point, in nanoseconds a block.
fn times(mut points: Vec<Point>) -> Vec<[f64; 2]> {
    let mut stores: Vec<Work> =
        points.iter_mut().map(|point| -> Work { Box::new(|| point.store()) }).collect();
    let stored = measure(&mut stores, 1);
    drop(stores);
    let mut reads: Vec<Work> = points.iter_mut().map(|point| -> Work { Box::new(|| point.read()) }).collect();
    let read = measure(&mut reads, 1);
    drop(reads);
    let a_block = |place: usize, times: &Times| times.median(place) / points[place].count() as f64;
    (0..points.len()).map(|place| [a_block(place, &stored), a_block(place, &read)]).collect()
}

/// N from 4 to 256, with every plane coded and slots that just take every code.
pub fn with_words() {
    println!("Growth with N: random integers, slots of 33N + 4 bits, nanoseconds a block and a word");
    print!("{:<12}", "");
    for dimension in DIMENSIONS {
        print!(" {:>10} {:>7}", format!("{} words", dimension.block_len()), "a word");
    }
    println!();
    let exact = DIMENSIONS.map(narrowest);
    let lossy = exact.map(|p| Params::lossy_integers(p.dimension().expect("it is good"), 32, p.width()));
    let points = DIMENSIONS.iter().cycle().zip(exact.into_iter().chain(lossy));
    let points = points.map(|(&dimension, params)| Point::new(params, dimension, MAX_ARCHIVE_LEN, 0));
    for (mode, times) in ["exact", "lossy"].iter().zip(times(points.collect()).chunks_exact(4)) {
        for (call, name) in ["store", "read"].into_iter().enumerate() {
            print!("{:<12}", format!("{mode} {name}"));
            for (dimension, times) in DIMENSIONS.iter().zip(times) {
                print!(" {:>10.0} {:>7.1}", times[call], times[call] / dimension.block_len() as f64);
            }
            println!();
        }
    }
    println!();
}

/// The cost of each further step from the point before, or nothing at the first.
fn further(costs: &[f64], steps: &[usize], place: usize) -> String {
    if place == 0 {
        return String::new();
    }
    format!("{:.1}", (costs[place] - costs[place - 1]) / (steps[place] - steps[place - 1]) as f64)
}

/// Planes from 1 to 32, in slots that hold all of them.
pub fn with_planes() {
    let dimensions = [Dimension::One, Dimension::Two, Dimension::Four];
    println!("Growth with p: lossy random integers in slots of 33N + 4 bits, nanoseconds a block,");
    println!("and for each further plane");
    print!("{:>6}", "");
    dimensions.iter().for_each(|dimension| print!("   {:<37}", format!("{} words", dimension.block_len())));
    print!("\n{:>6}", "planes");
    dimensions
        .iter()
        .for_each(|_| print!("   {:>8} {:>9} {:>8} {:>9}", "store", "further", "read", "further"));
    println!();
    let planes = [1, 2, 4, 8, 12, 16, 20, 24, 28, 32];
    let columns: Vec<Vec<f64>> = dimensions
        .into_iter()
        .flat_map(|dimension| {
            let width = narrowest(dimension).width();
            let params = planes.map(|p| Params::lossy_integers(dimension, p as u32, width));
            let times = times(params.map(|p| Point::new(p, dimension, MAX_ARCHIVE_LEN, 0)).into());
            [0, 1].map(|call| times.iter().map(|time| time[call]).collect())
        })
        .collect();
    for place in 0..planes.len() {
        print!("{:>6}", planes[place]);
        for pair in columns.chunks(2) {
            let [store, read] = [0, 1].map(|call| further(&pair[call], &planes, place));
            print!("   {:>8.0} {store:>9} {:>8.0} {read:>9}", pair[0][place], pair[1][place]);
        }
        println!();
    }
    println!();
}

/// Widths beyond the code, and archives beyond the slot.
pub fn with_width_and_archive() {
    println!("Growth with W and with the archive: exact random integers, 4 words, nanoseconds a block");
    println!("{:>6} {:>14} {:>12} {:>8} {:>8}", "W", "archive bytes", "first slot", "store", "read");
    let settings = [
        (136, 32_768, 0),
        (256, 32_768, 0),
        (512, 32_768, 0),
        (1024, 32_768, 0),
        (8462, 65_536, 0),
        (137, 65_536, 0),
        (136, 65_536, 0),
        (136, 65_536, 3_599),
    ];
    let points = settings.map(|(width, archive_len, first)| {
        let params = Params::exact_integers(Dimension::One).with_width(width);
        Point::new(params, Dimension::One, archive_len, first)
    });
    let times = times(points.into());
    for ((width, archive_len, first), [store, read]) in settings.iter().zip(&times) {
        println!("{width:>6} {archive_len:>14} {first:>12} {store:>8.0} {read:>8.0}");
    }
    let padding = f64::from(settings[4].0 - settings[0].0) / 8.0;
    for (call, name) in ["store", "read"].into_iter().enumerate() {
        let (narrow, wide) = (times[0][call], times[4][call]);
        println!(
            "A {name} of 4 words: {narrow:.0} at W = 136; at W = 8462 {wide:.0}, of which {:.2} a byte of padding",
            (wide - narrow) / padding
        );
    }
    println!();
}

/// A run of doubles and its stream.
struct Run {
    doubles: Vec<u64>,
    tables: [Vec<u64>; 2],
    stream: Vec<u8>,
    room: Vec<u8>,
}

impl Run {
    fn new(count: usize, size: usize) -> Run {
        let room = vec![0; 17 * count.div_ceil(2)];
        let tables = [vec![0; size], vec![0; size]];
        let mut run = Run { doubles: doubles(Data::Smooth, count), tables, stream: Vec::new(), room };
        let bytes = run.write();
        run.stream = run.room[..bytes].to_vec();
        run
    }

    fn write(&mut self) -> usize {
        let [f, d] = &mut self.tables;
        black_box(windlassow::fpc_write(f, d, &self.doubles, &mut self.room)).expect("there is room")
    }

    fn read(&mut self) {
        let [f, d] = &mut self.tables;
        black_box(windlassow::fpc_read(f, d, &self.stream, &mut self.doubles)).expect("the stream is good");
    }
}

/// Runs of 1 to 4096 doubles.
pub fn with_doubles() {
    for size in [16, 1024] {
        println!(
            "Growth with the number of doubles: smooth, tables of {size}; nanoseconds a call, a double,"
        );
        println!("and for each further double");
        println!(
            "{:>8}   {:>9} {:>9} {:>9}   {:>9} {:>9} {:>9}",
            "doubles", "write", "a double", "further", "read", "a double", "further"
        );
        let counts: Vec<usize> = (0..=12).map(|bit| 1 << bit).collect();
        let mut runs: Vec<Run> = counts.iter().map(|&count| Run::new(count, size)).collect();
        let mut writes: Vec<Work> = runs
            .iter_mut()
            .map(|run| -> Work {
                Box::new(|| {
                    run.write();
                })
            })
            .collect();
        let written = measure(&mut writes, 1);
        drop(writes);
        let mut reads: Vec<Work> = runs.iter_mut().map(|run| -> Work { Box::new(|| run.read()) }).collect();
        let read = measure(&mut reads, 1);
        let columns =
            [written, read].map(|times| (0..counts.len()).map(|n| times.median(n)).collect::<Vec<_>>());
        for (place, &count) in counts.iter().enumerate() {
            print!("{count:>8}");
            for costs in &columns {
                let cost = costs[place];
                print!("   {cost:>9.0} {:>9.1} {:>9}", cost / count as f64, further(costs, &counts, place));
            }
            println!();
        }
        println!();
    }
}
