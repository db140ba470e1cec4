//! The copier of request M-105: "A small copier takes an exact archive of any W to a new one with full slots, slot k to
//! slot k; its blocks come back equal, other bits of the new buffer stay, and the slots copied are counted."

use crate::params::{Checked, Mode, Params};
use crate::reply::Reply;
use crate::slots::{check_archive, padded_code, put_slot, readable_block, slots_in};

/// Copies an exact archive to one with slots of 33N + 14 bits. A done copy returns the slots copied. It has no planes to
/// report.
pub fn copy(params: &Params, archive: &[u8], new: &mut [u8]) -> Reply {
    match full_slots(params, archive, new) {
        Ok(slots) => {
            slots.iter().enumerate().for_each(|(slot, bits)| put_slot(new, slot, bits));
            Reply::done(slots.len(), 0)
        }
        Err(refusal) => refusal,
    }
}

/// The rows of a copy, in their order: 1 to 5 and 13, 6, 14, 11. Then the bits of every slot of the new archive.
fn full_slots(params: &Params, archive: &[u8], new: &[u8]) -> Result<Vec<Vec<bool>>, Reply> {
    // "3 for mode 0"
    let old = params.check_for(&[Mode::Exact])?;
    // "6 for either buffer"
    check_archive(archive)?;
    check_archive(new)?;
    check_room(&old, archive, new)?;
    (0..slots_in(&old, archive)).map(|slot| full_slot(&old, archive, slot)).collect()
}

/// "14 if the new one has fewer slots"
fn check_room(old: &Checked, archive: &[u8], new: &[u8]) -> Result<(), Reply> {
    let fewer = slots_in(&old.with_full_slots(), new) < slots_in(old, archive);
    if fewer { Err(Reply::refused(14)) } else { Ok(()) }
}

/// The full slot of the block that a slot reads as; "then 11 with the first unreadable slot's number".
fn full_slot(old: &Checked, archive: &[u8], slot: usize) -> Result<Vec<bool>, Reply> {
    let block = readable_block(old, archive, slot).ok_or(Reply::needs(11, slot))?;
    Ok(padded_code(&old.with_full_slots(), &block.words))
}
