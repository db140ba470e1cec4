//! The static library's copy compared with the reference's, on many inputs, and what a width of 0 stands for.

mod archives;
mod by_hand;
#[path = "../common/mod.rs"]
mod common;
mod compare;
#[allow(dead_code)]
#[path = "../slots/make.rs"]
mod make;
mod refusals;
mod widths;
