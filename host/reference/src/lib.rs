//! A second implementation of the codec, in plain safe Rust.
//!
//! It was written from the papers alone, apart from the proved one, so that a comparison of the two says
//! something. It is written for clarity: bits are lists of `bool`, a slot is decoded and coded again to see
//! whether it is a code, a stream likewise. Every module quotes the sentences that it follows: of document 01, and
//! of the requests M-100, where it speaks of dimensions 3 and 4, M-101, where it speaks of planes written whole, M-103,
//! where it speaks of the lowest exponent, M-105, where it speaks of full slots and of the copier, and M-106, where it speaks
//! of streams that come in pieces.
//!
//! The calls are [`store`], [`read`], [`slot_count`], [`bit_count`], [`copy()`], [`fpc_write`], [`fpc_read`],
//! [`transfer_open`], [`transfer_piece`], [`transfer_close`] and, for the listing program, [`listing()`]. The modules hold the
//! pieces.
#![forbid(unsafe_code)]

pub mod bits;
pub mod code;
pub mod copy;
pub mod floats;
pub mod fpc;
pub mod listing;
pub mod params;
pub mod planes;
pub mod reply;
pub mod slots;
pub mod transfer;
pub mod transform;
pub mod words;

pub use copy::copy;
pub use fpc::{fpc_read, fpc_write};
pub use listing::listing;
pub use params::Params;
pub use reply::{FpcReply, Reply};
pub use slots::{bit_count, read, slot_count, store};
pub use transfer::{Transfer, transfer_close, transfer_open, transfer_piece};
