//! Prints the tables of docs/LOSSY.md: `accuracy [SCALE]`. The page's are those of scale 40, which takes a minute or two.

use accuracy::draw::Class;
use accuracy::ends::ends;
use accuracy::integers::{BLOCKS, Found, Sort};
use accuracy::report::{ABOVE, above_row, argument_row, class_row, k_row, range_row, ranges, worst_block};
use accuracy::run::{K, LONG, Measured, measure};
use accuracy::sizes::{size_row, sizes};
use accuracy::{ALL_PLANES, DIMENSIONS};
use std::env;
use std::process::ExitCode;
use testing::grouped;

fn main() -> ExitCode {
    let scale = match env::args().nth(1).map(|text| text.parse()) {
        None => LONG,
        Some(Ok(scale)) if env::args().len() == 2 && scale > 0 => scale,
        Some(_) => {
            eprintln!("usage: accuracy [SCALE]");
            return ExitCode::from(2);
        }
    };
    integers();
    let measured: Vec<Measured> = DIMENSIONS.map(|d| measure(d, scale)).into();
    tables(&measured);
    println!("\nBy each k:\n");
    for k in K {
        println!("{}", k_row(k, &measured));
    }
    worst(&measured);
    infinities(scale);
    ExitCode::SUCCESS
}

fn integers() {
    let found = Found::of(Sort::Readings, BLOCKS).expect("a lossy store of integers is done");
    println!("| {} blocks of readings in tenths of a degree | |", grouped(BLOCKS));
    println!("|---|---:|");
    found.size_rows().iter().for_each(|row| println!("{row}"));
    println!("\n| value | -2 | -1 | 0 | 1 |");
    println!("|---|---:|---:|---:|---:|");
    (0..4).for_each(|place| println!("{}", found.row(place)));
    println!();
}

fn tables(measured: &[Measured]) {
    println!("| dimension d | blocks | 1 / 2^(2d + 2) | 1/8 | 1/4 | 1/2 | 2^19 | 2^(30 - 2d) |");
    println!("|---|---:|---:|---:|---:|---:|---:|---:|");
    measured.iter().for_each(|found| println!("{}", range_row(found)));
    println!("\n| blocks | d = 1 | 2 | 3 | 4 |");
    println!("|---|---:|---:|---:|---:|");
    Class::ALL.iter().for_each(|&class| println!("{}", class_row(class, measured)));
    let names: Vec<String> = ABOVE.map(|k| k.to_string()).collect();
    println!("\n| dimension d | k = {} |", names.join(" | "));
    println!("|---|{}", "---:|".repeat(names.len()));
    measured.iter().for_each(|found| println!("{}", above_row(found)));
    println!("\n| dimension d | 2^19 | 2^(30 - 2d) |");
    println!("|---|---:|---:|");
    DIMENSIONS.iter().for_each(|&d| println!("{}", argument_row(d)));
    println!("\n| dimension | words | exact | q = -5 | the longest | largest error in degrees |");
    println!("|---|---:|---:|---:|---:|---:|");
    for d in DIMENSIONS {
        println!("{}", size_row(&sizes(d).expect("readings are finite")));
    }
}

fn worst(measured: &[Measured]) {
    println!("\nThe worst blocks:\n");
    for found in measured {
        for range in ranges(found.d) {
            println!("{}", worst_block(found, range));
        }
    }
}

fn infinities(scale: usize) {
    println!("\nInfinities, by m and k:\n");
    for m in [126, 127, 128] {
        println!("{m}, 1 to 2d + 1: {:?}", ends(m, |d| (1, 2 * d as i32 + 1), 10 * scale));
        println!("{m}, 2d + 2 to 32: {:?}", ends(m, |d| (2 * d as i32 + 2, ALL_PLANES), scale));
    }
}
