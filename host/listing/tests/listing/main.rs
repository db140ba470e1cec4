//! The listing program as it is built, compared with the reference.
//!
//! Expected output is the reference's, and for some inputs is written out by hand from document 01.
//! `WINDLASSOW_LONG=1` runs the comparisons for longer.

mod edges;
mod files;
mod first;
mod generated;
mod large;
mod make;
mod memory;
mod pieces;
mod run;
mod samples;
