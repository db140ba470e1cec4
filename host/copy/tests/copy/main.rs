//! The program as it is built, on files in a folder of their own.
//!
//! Rows of slots are put together and taken apart here bit by bit, each slot in a call of its own, so that nothing is
//! shared with the way in which the program cuts a file into runs.

mod files;
mod kept;
mod progress;
mod room;
mod row;
mod sample;
mod slots;
mod unreadable;
mod usage;
