//! The proved library compared with libzfp, the zfp program of its authors, block by block.
//!
//! Every block is written by both and every slot read by both. Where they differ, the difference must belong to one
//! of the [`classes::Class`]es. These are stated beforehand: [`expected`] says for every block and slot what libzfp
//! does, from document 01 and the conditions of the classes, and libzfp is held to it bit for bit. The reference
//! implementation, which follows document 01, is asked each time as well, and must agree with the proved library.
//!
//! The tests run the comparison for some seconds; the program `differences` prints what it counts.

pub mod bits;
pub mod classes;
pub mod compare;
pub mod cuts;
pub mod expected;
#[cfg(libzfp)]
mod ffi;
pub mod libzfp;
pub mod make;
pub mod order;
pub mod planes;
pub mod report;
pub mod run;
pub mod slots;
pub mod tally;
pub mod witness;
