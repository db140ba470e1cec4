//! FPC streams written and read.

use crate::data::{Data, doubles};
use crate::timing::{Times, Work, measure, spread};
use std::hint::black_box;

/// A run of doubles, and tables of some size.
pub struct Case {
    run: Vec<u64>,
    size: usize,
}

/// Both tables, of one program.
struct Tables(Vec<u64>, Vec<u64>);

impl Case {
    /// So many doubles.
    pub fn new(data: Data, count: usize, size: usize) -> Case {
        Case { run: doubles(data, count), size }
    }

    fn tables(&self) -> Tables {
        Tables(vec![0; self.size], vec![0; self.size])
    }

    fn room(&self) -> Vec<u8> {
        vec![0; 17 * self.run.len().div_ceil(2)]
    }

    /// The stream, which both programs write alike.
    pub fn stream(&self) -> Vec<u8> {
        let (Tables(mut f, mut d), mut out) = (self.tables(), self.room());
        let mut expected = out.clone();
        let count = windlassow::fpc_write(&mut f, &mut d, &self.run, &mut out).expect("there is room");
        let reply = reference::fpc_write(&mut f, &mut d, &self.run, &mut expected);
        assert!(reply.count as usize == count && out == expected, "the reference writes otherwise");
        out.truncate(count);
        out
    }

    /// The time of a write by each program.
    pub fn time_write(&self) -> Times {
        let (mut ours, mut theirs) = (self.tables(), self.tables());
        let (mut out, mut out2) = (self.room(), self.room());
        let mut programs: Vec<Work> = vec![
            Box::new(|| {
                let run = black_box(&self.run);
                black_box(windlassow::fpc_write(&mut ours.0, &mut ours.1, run, &mut out)).expect("done");
            }),
            Box::new(|| {
                let run = black_box(&self.run);
                black_box(reference::fpc_write(&mut theirs.0, &mut theirs.1, run, &mut out2));
            }),
        ];
        measure(&mut programs, self.run.len())
    }

    /// The time of a read by each program.
    pub fn time_read(&self) -> Times {
        let stream = self.stream();
        let (mut ours, mut theirs) = (self.tables(), self.tables());
        let mut back = vec![0; self.run.len()];
        let mut back2 = back.clone();
        let mut programs: Vec<Work> = vec![
            Box::new(|| {
                let stream = black_box(&stream);
                black_box(windlassow::fpc_read(&mut ours.0, &mut ours.1, stream, &mut back)).expect("done");
            }),
            Box::new(|| {
                let stream = black_box(&stream);
                black_box(reference::fpc_read(&mut theirs.0, &mut theirs.1, stream, &mut back2));
            }),
        ];
        let times = measure(&mut programs, self.run.len());
        drop(programs);
        assert!(back == self.run && back2 == self.run, "a run does not come back");
        times
    }
}

fn row(name: &str, times: &Times) {
    let (ours, theirs) = (times.median(0), times.median(1));
    println!("{name:<37} {ours:>7.1} {theirs:>7.1} {:>7.0}   {}", 8e3 / ours, spread(times.ratio(0, 1)));
}

/// The table of writes and reads.
pub fn table() {
    println!("FPC, nanoseconds a double, runs of 4096 doubles");
    println!("{:<37} {:>7} {:>7} {:>7}   proved/reference", "", "proved", "ref.", "MB/s");
    for data in [Data::Smooth, Data::Random] {
        for size in [16, 1024] {
            let case = Case::new(data, 4096, size);
            row(&format!("{} tables of {size:>4} write", data.name()), &case.time_write());
            row(&format!("{} tables of {size:>4} read", data.name()), &case.time_read());
        }
    }
    println!();
}
