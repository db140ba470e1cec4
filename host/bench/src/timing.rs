//! Interleaved rounds of several programs that do the same work, and what comes of them.

use std::time::{Duration, Instant};

/// The rounds of every comparison.
pub const ROUNDS: usize = 41;

/// The least time of one sample, so that the clock's own steps do not matter.
const LEAST: Duration = Duration::from_millis(1);

/// One of the programs: does the work once.
pub type Work<'a> = Box<dyn FnMut() + 'a>;

/// The nanoseconds that each program took for one piece of the work, by round.
pub struct Times(Vec<Vec<f64>>);

/// Runs the programs in turn, round after round. `pieces` is what one call of the work does: blocks, or doubles.
pub fn measure(programs: &mut [Work<'_>], pieces: usize) -> Times {
    let repeats: Vec<u32> = programs.iter_mut().map(repeats).collect();
    let mut times = vec![Vec::new(); programs.len()];
    for _ in 0..ROUNDS {
        for ((program, &repeats), times) in programs.iter_mut().zip(&repeats).zip(&mut times) {
            let began = Instant::now();
            (0..repeats).for_each(|_| program());
            let nanoseconds = began.elapsed().as_nanos() as f64;
            times.push(nanoseconds / f64::from(repeats) / pieces as f64);
        }
    }
    Times(times)
}

/// How often a program does its work in one sample. Its first calls, which fill the caches, are not counted.
fn repeats(program: &mut Work<'_>) -> u32 {
    program();
    let mut repeats = 1;
    loop {
        let began = Instant::now();
        (0..repeats).for_each(|_| program());
        if began.elapsed() >= LEAST || repeats >= 1 << 20 {
            return repeats;
        }
        repeats *= 2;
    }
}

impl Times {
    /// How many programs there were.
    pub fn programs(&self) -> usize {
        self.0.len()
    }

    /// The median of a program's times.
    pub fn median(&self, program: usize) -> f64 {
        quartiles(self.0[program].clone())[1]
    }

    /// The quartiles of the ratios of two programs' times, round by round.
    pub fn ratio(&self, program: usize, to: usize) -> [f64; 3] {
        quartiles(self.0[program].iter().zip(&self.0[to]).map(|(time, other)| time / other).collect())
    }
}

/// The lower quartile, the median and the upper quartile.
fn quartiles(mut values: Vec<f64>) -> [f64; 3] {
    values.sort_by(f64::total_cmp);
    let last = values.len() - 1;
    [last / 4, last / 2, last - last / 4].map(|place| values[place])
}

/// "1.23 (1.20 to 1.31)": the median and the quartiles.
pub fn spread([lower, median, upper]: [f64; 3]) -> String {
    let digits = if median < 9.95 { 2 } else { 1 };
    format!("{median:.digits$} ({lower:.digits$} to {upper:.digits$})")
}
