//! Runs the comparison: `conversions [MILLIONS | all]`.
//!
//! MILLIONS is the number of random conversions of each kind, 20 if it is not given. With `all`, every integer
//! and every pattern is compared with every e, which takes hours.

use conversions::{Outcome, Random, chosen_integers, chosen_patterns, every_input, random_ones};
use std::env;
use std::process::ExitCode;
use std::time::Instant;

fn main() -> ExitCode {
    let argument = env::args().nth(1);
    let agreed = match argument.as_deref() {
        Some("all") => (0..256).all(|e| report(&format!("every input, e = {e}"), || every_input(e))),
        Some(text) => match text.parse() {
            Ok(millions) => chosen_and_random(millions),
            Err(_) => {
                eprintln!("usage: conversions [MILLIONS | all]");
                return ExitCode::from(2);
            }
        },
        None => chosen_and_random(20),
    };
    if agreed { ExitCode::SUCCESS } else { ExitCode::FAILURE }
}

fn chosen_and_random(millions: u64) -> bool {
    let mut random = Random::new(7);
    report("chosen integers to patterns", || chosen_integers(&mut random))
        && report("chosen patterns to integers", || chosen_patterns(&mut random))
        && report("random ones of both", || random_ones(&mut random, millions * 1_000_000))
}

/// Prints the outcome of a part, and whether all of it agreed.
fn report(name: &str, part: impl FnOnce() -> Outcome) -> bool {
    let start = Instant::now();
    match part() {
        Ok(count) => {
            println!("{name}: {count} agree, {:.1} s", start.elapsed().as_secs_f64());
            true
        }
        Err(difference) => {
            println!("{name}: differ: {difference:x?}");
            false
        }
    }
}
