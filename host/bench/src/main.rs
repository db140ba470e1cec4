//! The time that the proved library takes, beside the independent implementation and beside libzfp.
//!
//! Everything is measured in one run, the programs taking turns, and the ratios are given with their quartiles.
#![forbid(unsafe_code)]

mod copy;
mod data;
mod fpc;
mod growth;
mod pieces;
mod slots;
mod timing;

use std::time::Instant;
use zfp::libzfp::Libzfp;

const HEAD: &str = "\
proved: the static library. reference: plain Rust, written for clarity.
The programs take turns in every round; ratios are of the times of one round, with their median and (lower to
upper quartile). Below 1, the proved library is faster.
Archives are zeroed once; each later pass stores the same blocks over what the one before it left.
An exact read of the proved library also tells whether the slot is some block's padded code (answer 11), and the
reference codes the block again for that; libzfp does neither. libzfp goes through one open stream, slot after slot.
All programs write the same bytes, which is checked before the time is taken. In blocks of 64 and 256 words libzfp has
another order of coefficients; there its bytes are held to that order.
";

fn main() {
    let began = Instant::now();
    let lib = Libzfp::find();
    print!("{HEAD}");
    match &lib {
        Ok(lib) => println!("libzfp: {}, stream words of {} bits.", lib.version, lib.word_bits),
        Err(missing) => println!("{missing}"),
    }
    println!("{} rounds, medians of the times.\n", timing::ROUNDS);
    slots::table(lib.as_ref().ok());
    copy::table();
    fpc::table();
    pieces::table();
    growth::with_words();
    growth::with_planes();
    growth::with_width_and_archive();
    growth::with_doubles();
    println!("{:.0} s in all", began.elapsed().as_secs_f64());
}
