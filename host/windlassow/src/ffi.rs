//! The exported calls of the static library, and a safe function over each. All unsafe code is here.
//!
//! The library takes a slice as a pointer and a length in elements, looks at nothing outside of the slices lent
//! and keeps none of them, so passing the parts of a Rust slice is all that is needed for safety.
#![allow(unsafe_code)]

use crate::{Params, TransferRecord};

/// What every call on slots returns: an answer number, a count and the planes.
#[repr(C)]
#[derive(Clone, Copy)]
pub struct Reply {
    pub answer: u32,
    pub count: u32,
    pub planes: u32,
}

/// What every call on streams returns: an answer number and a count.
#[repr(C)]
#[derive(Clone, Copy)]
pub struct FpcReply {
    pub answer: u32,
    pub count: u32,
}

unsafe extern "C" {
    fn windlassow_store(
        kind: u32,
        dimension: u32,
        mode: u32,
        planes: u32,
        width: u32,
        lowest: i32,
        archive: *mut u8,
        archive_len: usize,
        slot: usize,
        words: *const u32,
        words_len: usize,
    ) -> Reply;

    fn windlassow_read(
        kind: u32,
        dimension: u32,
        mode: u32,
        planes: u32,
        width: u32,
        lowest: i32,
        archive: *const u8,
        archive_len: usize,
        slot: usize,
        words: *mut u32,
        words_len: usize,
    ) -> Reply;

    fn windlassow_slot_count(
        kind: u32,
        dimension: u32,
        mode: u32,
        planes: u32,
        width: u32,
        lowest: i32,
        archive: *const u8,
        archive_len: usize,
    ) -> Reply;

    fn windlassow_bit_count(
        kind: u32,
        dimension: u32,
        mode: u32,
        planes: u32,
        width: u32,
        lowest: i32,
        words: *const u32,
        words_len: usize,
    ) -> Reply;

    fn windlassow_copy(
        kind: u32,
        dimension: u32,
        mode: u32,
        planes: u32,
        width: u32,
        lowest: i32,
        archive: *const u8,
        archive_len: usize,
        new: *mut u8,
        new_len: usize,
    ) -> Reply;

    fn windlassow_fpc_write(
        f: *mut u64,
        f_len: usize,
        d: *mut u64,
        d_len: usize,
        doubles: *const u64,
        doubles_len: usize,
        out: *mut u8,
        out_len: usize,
    ) -> FpcReply;

    fn windlassow_fpc_read(
        f: *mut u64,
        f_len: usize,
        d: *mut u64,
        d_len: usize,
        stream: *const u8,
        stream_len: usize,
        doubles: *mut u64,
        doubles_len: usize,
    ) -> FpcReply;

    fn windlassow_transfer_open(
        transfer: *mut TransferRecord,
        f: *mut u64,
        f_len: usize,
        d: *mut u64,
        d_len: usize,
    ) -> FpcReply;

    fn windlassow_transfer_piece(
        transfer: *mut TransferRecord,
        f: *mut u64,
        f_len: usize,
        d: *mut u64,
        d_len: usize,
        piece: *const u8,
        piece_len: usize,
        doubles: *mut u64,
        doubles_len: usize,
    ) -> FpcReply;

    fn windlassow_transfer_close(transfer: *mut TransferRecord) -> FpcReply;
}

pub fn store(p: Params, archive: &mut [u8], slot: usize, words: &[u32]) -> Reply {
    // SAFETY: the pointers and lengths are those of slices borrowed for the call.
    unsafe {
        windlassow_store(
            p.kind,
            p.dimension,
            p.mode,
            p.planes,
            p.width,
            p.lowest,
            archive.as_mut_ptr(),
            archive.len(),
            slot,
            words.as_ptr(),
            words.len(),
        )
    }
}

pub fn read(p: Params, archive: &[u8], slot: usize, words: &mut [u32]) -> Reply {
    // SAFETY: as above.
    unsafe {
        windlassow_read(
            p.kind,
            p.dimension,
            p.mode,
            p.planes,
            p.width,
            p.lowest,
            archive.as_ptr(),
            archive.len(),
            slot,
            words.as_mut_ptr(),
            words.len(),
        )
    }
}

pub fn slot_count(p: Params, archive: &[u8]) -> Reply {
    // SAFETY: as above.
    unsafe {
        windlassow_slot_count(
            p.kind,
            p.dimension,
            p.mode,
            p.planes,
            p.width,
            p.lowest,
            archive.as_ptr(),
            archive.len(),
        )
    }
}

pub fn bit_count(p: Params, words: &[u32]) -> Reply {
    // SAFETY: as above.
    unsafe {
        windlassow_bit_count(
            p.kind,
            p.dimension,
            p.mode,
            p.planes,
            p.width,
            p.lowest,
            words.as_ptr(),
            words.len(),
        )
    }
}

pub fn copy(p: Params, archive: &[u8], new: &mut [u8]) -> Reply {
    // SAFETY: as above.
    unsafe {
        windlassow_copy(
            p.kind,
            p.dimension,
            p.mode,
            p.planes,
            p.width,
            p.lowest,
            archive.as_ptr(),
            archive.len(),
            new.as_mut_ptr(),
            new.len(),
        )
    }
}

pub fn fpc_write(f: &mut [u64], d: &mut [u64], doubles: &[u64], out: &mut [u8]) -> FpcReply {
    // SAFETY: as above.
    unsafe {
        windlassow_fpc_write(
            f.as_mut_ptr(),
            f.len(),
            d.as_mut_ptr(),
            d.len(),
            doubles.as_ptr(),
            doubles.len(),
            out.as_mut_ptr(),
            out.len(),
        )
    }
}

pub fn fpc_read(f: &mut [u64], d: &mut [u64], stream: &[u8], doubles: &mut [u64]) -> FpcReply {
    // SAFETY: as above.
    unsafe {
        windlassow_fpc_read(
            f.as_mut_ptr(),
            f.len(),
            d.as_mut_ptr(),
            d.len(),
            stream.as_ptr(),
            stream.len(),
            doubles.as_mut_ptr(),
            doubles.len(),
        )
    }
}

pub fn transfer_open(transfer: &mut TransferRecord, f: &mut [u64], d: &mut [u64]) -> FpcReply {
    // SAFETY: as above, and the record is borrowed for the call.
    unsafe { windlassow_transfer_open(transfer, f.as_mut_ptr(), f.len(), d.as_mut_ptr(), d.len()) }
}

pub fn transfer_piece(
    transfer: &mut TransferRecord,
    f: &mut [u64],
    d: &mut [u64],
    piece: &[u8],
    doubles: &mut [u64],
) -> FpcReply {
    // SAFETY: as above.
    unsafe {
        windlassow_transfer_piece(
            transfer,
            f.as_mut_ptr(),
            f.len(),
            d.as_mut_ptr(),
            d.len(),
            piece.as_ptr(),
            piece.len(),
            doubles.as_mut_ptr(),
            doubles.len(),
        )
    }
}

pub fn transfer_close(transfer: &mut TransferRecord) -> FpcReply {
    // SAFETY: the record is borrowed for the call.
    unsafe { windlassow_transfer_close(transfer) }
}
