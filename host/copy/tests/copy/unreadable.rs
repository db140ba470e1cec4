//! Slots that cannot be read are named by their numbers in the file, and nothing is written.

use crate::room::Room;
use crate::row::{Row, block, blocks, params, run_slots};

/// A file in which these slots cannot be read.
fn spoilt(kind: &str, dimension: u32, width: u32, slots: usize, bad: &[usize]) -> Room {
    let params = params(kind, dimension, width);
    let mut row = Row::of(params, &blocks(params, slots, 7));
    bad.iter().for_each(|&slot| row.spoil(params, slot));
    Room::with(&row.bytes(false))
}

fn lists(room: &Room, said: &[&str], ended: crate::room::Ended) {
    let expected: String = said.iter().map(|line| format!("windlassow copy: {line}\n")).collect();
    let ours = ended.said.lines().filter(|line| !line.contains("copy: read "));
    assert_eq!(ours.map(|line| format!("{line}\n")).collect::<String>(), expected);
    assert_eq!((ended.status, room.names()), (Some(1), vec!["old".to_string()]));
}

/// In three runs: the first slot of the file, the last of a run and the first of the next, the first of a run, the last of all.
#[test]
fn in_several_runs() {
    let run = run_slots(params("floats", 1, 37));
    assert_eq!(run, 3_584);
    let bad = [0, 5, 6, 7, run - 1, run, run + 100, 2 * run, 2 * run + 10];
    let room = spoilt("floats", 1, 37, 2 * run + 11, &bad);
    let said = [
        "unreadable: slots 0, 5 to 7, 3583 to 3584, 3684, 7168, 7178",
        "old: 9 of 7,179 slots cannot be read with these parameters; nothing was written",
    ];
    lists(&room, &said, room.copy("floats", "1", "37"));
}

#[test]
fn one_slot() {
    for slot in [0, 55, 56, 149] {
        let room = spoilt("integers", 4, 2_051, 150, &[slot]);
        let said = [
            &*format!("unreadable: slot {slot}"),
            "old: 1 of 150 slots cannot be read with these parameters; nothing was written",
        ];
        lists(&room, &said, room.copy("integers", "4", "2051"));
    }
}

/// Every slot of a file, and every second one, over the borders of runs.
#[test]
fn many_slots() {
    let all: Vec<_> = (0..120).collect();
    let room = spoilt("floats", 4, 2_048, 120, &all);
    let said = [
        "unreadable: slots 0 to 119",
        "old: 120 of 120 slots cannot be read with these parameters; nothing was written",
    ];
    lists(&room, &said, room.copy("floats", "4", "8N"));
    let every_second: Vec<_> = (0..120).step_by(2).collect();
    let room = spoilt("floats", 4, 2_048, 120, &every_second);
    let numbers: Vec<_> = every_second.iter().map(usize::to_string).collect();
    let ended = room.copy("floats", "4", "8N");
    let named: Vec<_> = ended.said.lines().filter_map(|line| line.split_once(": slots ")).collect();
    assert_eq!(named.iter().map(|line| line.1).collect::<Vec<_>>().join(", "), numbers.join(", "));
    ended.with(1, "old: 60 of 120 slots cannot be read with these parameters; nothing was written");
    assert_eq!(room.names(), ["old"]);
}

/// Readings opened with a wrong width: the slots named are those that `read` refuses.
#[test]
fn a_wrong_width() {
    let right = params("floats", 1, 64);
    let room = Room::with(&Row::of(right, &blocks(right, 500, 3)).bytes(false));
    let (wrong, old) = (params("floats", 1, 61), room.content("old"));
    let bad = (0..8 * old.len() / 61).filter(|&slot| block(wrong, &old, slot).is_none()).count();
    assert!(bad > 0);
    let ended = room.copy("floats", "1", "61");
    ended.with(
        1,
        &format!("old: {bad} of 524 slots cannot be read with these parameters; nothing was written"),
    );
    assert_eq!(room.names(), ["old"]);
}
