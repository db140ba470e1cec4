//! Prints the report of the comparison with libzfp: `differences [SCALE [SEED]]`.
//!
//! SCALE multiplies the number of blocks and slots; both are 1 if they are not given. The report of docs/DIFFERENCES.md
//! is that of scale 1 and seed 1.

use std::env;
use std::process::ExitCode;
use zfp::classes::Call;
use zfp::compare::Comparison;
use zfp::libzfp::Libzfp;
use zfp::report::{cut_scans, lowest, orders, planes, reading, writing};
use zfp::run::run;
use zfp::witness::WITNESSES;

fn main() -> ExitCode {
    let numbers: Result<Vec<u64>, _> = env::args().skip(1).map(|text| text.parse()).collect();
    let Some(numbers) = numbers.ok().filter(|numbers| numbers.len() <= 2) else {
        eprintln!("usage: differences [SCALE [SEED]]");
        return ExitCode::from(2);
    };
    let scale = numbers.first().copied().unwrap_or(1);
    let seed = numbers.get(1).copied().unwrap_or(1);
    match Libzfp::find() {
        Ok(lib) => report(lib, scale as usize, seed),
        Err(message) => {
            eprintln!("differences: {message}");
            ExitCode::FAILURE
        }
    }
}

fn report(lib: Libzfp, scale: usize, seed: u64) -> ExitCode {
    println!("{}, stream words of {} bits; scale {scale}, seed {seed}", lib.version, lib.word_bits);
    println!(
        "\nPlaces whose coefficient has another number in libzfp's order:\n\n{}",
        orders(&lib).join("\n")
    );
    let mut comparison = run(lib, seed, scale);
    println!("\nBlocks written by both:\n\n{}", writing(&comparison.tally).join("\n"));
    println!("\nSlots read by both:\n\n{}", reading(&comparison.tally).join("\n"));
    for (call, what) in [(Call::Write, "blocks"), (Call::Read, "slots")] {
        let lines = planes(&comparison.tally, call).join("\n");
        println!("\nLossy {what} whose planes are libzfp's, in dimensions 1 to 4:\n\n{lines}");
    }
    println!(
        "\nLossy floats with q above -300, by the planes left:\n\n{}",
        lowest(&comparison.tally).join("\n")
    );
    println!("\nLossy slots that end in a scan:\n\n{}", cut_scans(&comparison.tally).join("\n"));
    println!("\nExamples:\n");
    let mut failures = comparison.tally.complaints();
    failures.append(&mut comparison.failures);
    failures.append(&mut examples(&mut comparison));
    for failure in &failures {
        println!("NOT EXPLAINED: {failure}");
    }
    println!("{} differences that no class explains", failures.len());
    if failures.is_empty() { ExitCode::SUCCESS } else { ExitCode::FAILURE }
}

/// Prints the witnesses, and gives those that are not in their class.
fn examples(comparison: &mut Comparison) -> Vec<String> {
    let mut failures = Vec::new();
    for witness in WITNESSES {
        let (lines, class) = witness.show(comparison);
        println!("{}\n", lines.join("\n"));
        if class != Some(witness.class) {
            failures.push(format!("{witness:?} is in {class:?}"));
        }
    }
    failures.append(&mut comparison.failures);
    failures
}
