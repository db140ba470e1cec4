//! How far a copy is.

use crate::room::Room;

/// A file in 20 runs: at most a line for every tenth of a pass, and the last line says what was done.
#[test]
fn a_line_for_every_tenth() {
    let room = Room::with(&vec![0; 2 * 3_584 * 20]);
    let ended = room.copy("floats", "1", "16");
    ended.with(0, "copied 71,680 slots of 16 bits to slots of 146 bits: new, 1,308,160 bytes");
    let lines: Vec<_> = ended.said.lines().collect();
    assert_eq!(lines.len(), 9 + 9 + 1, "{lines:#?}");
    assert_eq!(lines[0], "windlassow copy: read 7,168 of 71,680 slots");
    assert_eq!(lines[17], "windlassow copy: wrote 64,512 of 71,680 slots");
}
