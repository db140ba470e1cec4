//! The static library's transfers compared with the reference's, call by call, and what a record may hold.

mod by_hand;
#[path = "../common/mod.rs"]
mod common;
mod compare;
mod cuts;
mod damage;
mod fit;
mod interface;
#[allow(dead_code)]
#[path = "../fpc/make.rs"]
mod make;
mod openings;
mod prompt;
mod records;
mod refusals;
