//! Files of all kinds of slots: every slot comes to its place.

use crate::room::Room;
use crate::row::{Row, block, blocks, params, run_slots};

/// A file that is to be copied.
struct Case {
    kind: &'static str,
    dimension: u32,
    /// As on the command line, and the bits that it stands for.
    width: (&'static str, u32),
    slots: usize,
    /// Bits after the last slot, before those that fill up the last byte.
    rest: usize,
}

impl Case {
    /// Slot k of the new file has the block of slot k of the old one, for all k, and the new file has nothing else.
    fn holds(&self) {
        let Case { kind, dimension, width: (word, width), slots, rest } = *self;
        let (old, full) = (params(kind, dimension, width), params(kind, dimension, 0));
        let blocks = blocks(old, slots, u64::from(width) + slots as u64);
        let mut row = Row::of(old, &blocks);
        row.lengthen(rest);
        let room = Room::with(&row.bytes(true));
        let ended = room.copy(kind, &dimension.to_string(), word);
        assert_eq!(ended.status, Some(0), "{ended:?}");
        assert_eq!(room.names(), ["new", "old"]);
        let new = room.content("new");
        let bits = 33 * 4usize.pow(dimension) + 14;
        assert_eq!(new.len(), (slots * bits).div_ceil(8));
        for (slot, expected) in blocks.iter().enumerate() {
            assert_eq!(block(full, &new, slot).as_ref(), Some(expected), "slot {slot} of {word}");
        }
        assert!(new == Row::of(full, &blocks).bytes(false), "a bit outside of the slots: {word}");
    }
}

/// Cases of one kind, dimension and width: around a run, around two, and a single slot.
fn around_runs(kind: &'static str, dimension: u32, width: (&'static str, u32)) {
    let old = params(kind, dimension, width.1);
    let (run, half) = (run_slots(old), old.slot_bits().unwrap() / 2);
    for (slots, rest) in [(1, 0), (run - 1, 5), (run, 0), (run + 1, half), (2 * run + 3, half - 3)] {
        Case { kind, dimension, width, slots, rest }.holds();
    }
}

#[test]
fn lines_in_narrow_slots() {
    around_runs("floats", 1, ("8N", 32));
    around_runs("integers", 1, ("16", 16));
    around_runs("integers", 1, ("37", 37));
}

#[test]
fn lines_around_the_full_width() {
    around_runs("floats", 1, ("145", 145));
    around_runs("floats", 1, ("146", 146));
    around_runs("integers", 1, ("147", 147));
}

#[test]
fn lines_in_full_and_wide_slots() {
    around_runs("integers", 1, ("0", 0));
    around_runs("floats", 1, ("1001", 1_001));
    around_runs("integers", 1, ("8462", 8_462));
}

#[test]
fn squares_and_cubes() {
    around_runs("integers", 2, ("8N", 128));
    around_runs("floats", 2, ("541", 541));
    around_runs("floats", 3, ("8N", 512));
    around_runs("integers", 3, ("2131", 2_131));
}

#[test]
fn stacks() {
    around_runs("floats", 4, ("8N", 2_048));
    around_runs("integers", 4, ("4003", 4_003));
    around_runs("integers", 4, ("0", 0));
    around_runs("floats", 4, ("8461", 8_461));
}

/// Full slots are copied to themselves.
#[test]
fn full_slots_stay_as_they_are() {
    let full = params("floats", 1, 0);
    let archive = Row::of(full, &blocks(full, 4_000, 1)).bytes(false);
    let room = Room::with(&archive);
    room.copy("floats", "1", "0")
        .with(0, "copied 4,000 slots of 146 bits to slots of 146 bits: new, 73,000 bytes");
    assert!(room.content("new") == archive);
}

/// Files without a slot have copies without a slot.
#[test]
fn files_without_a_slot() {
    let room = Room::with(&[]);
    let ended = room.copy("floats", "1", "8N");
    ended.with_line(0, "copied 0 slots of 32 bits to slots of 146 bits: new, 0 bytes");
    assert_eq!(room.content("new"), []);
    let room = Room::with(&[0xff; 3]);
    let ended = room.copy("floats", "1", "8N");
    ended.with(0, "copied 0 slots of 32 bits to slots of 146 bits: new, 0 bytes");
    assert!(
        ended.said.starts_with("windlassow copy: the last 24 bits of old are no whole slot: not copied\n")
    );
    assert_eq!(room.content("new"), []);
}

/// Bits after the last slot are told of where they are more than what fills up a byte.
#[test]
fn bits_after_the_last_slot() {
    // 20 slots of 33 bits are 660 bits: 4 bits are left of 83 bytes, 12 of 84.
    for (len, said) in [(83, None), (84, Some("the last 12 bits of old are no whole slot: not copied"))] {
        let room = Room::with(&vec![0; len]);
        let ended = room.copy("floats", "1", "33");
        ended.with(0, "copied 20 slots of 33 bits to slots of 146 bits: new, 365 bytes");
        let before = ended.said.lines().rev().nth(1);
        assert_eq!(before.map(str::to_string), said.map(|said| format!("windlassow copy: {said}")));
    }
}

#[test]
fn one_slot_of_one_byte_more() {
    let room = Room::with(&[0; 2]);
    room.copy("integers", "1", "16")
        .with_line(0, "copied 1 slot of 16 bits to slots of 146 bits: new, 19 bytes");
}
