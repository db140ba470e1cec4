//! Both calls on the same input, and what must hold of their outcome.

use crate::common::*;
use crate::make::lent_table;
use reference::FpcReply;
use reference::fpc::stream_of;

/// Writes with both and compares reply, output and tables. Gives the reply.
pub fn compare_write(random: &mut Random, sizes: (usize, usize), run: &[u64], room: usize) -> FpcReply {
    let (f, d) = (lent_table(random, sizes.0), lent_table(random, sizes.1));
    let out = random.bytes(room);
    let (mut f1, mut d1, mut out1) = (f.clone(), d.clone(), out.clone());
    let expected = reference::fpc_write(&mut f1, &mut d1, run, &mut out1);
    let (mut f2, mut d2, mut out2) = (Guarded::new(&f, 1), Guarded::new(&d, 2), Guarded::new(&out, 3));
    let lent = Guarded::new(run, 4);
    let given = fpc_reply(windlassow::fpc_write(&mut f2, &mut d2, &lent, &mut out2));
    assert_eq!(given, expected, "tables of {sizes:?}, room {room}, run {}", shown(run));
    assert!(*out2 == *out1, "output: tables of {sizes:?}, room {room}, run {}", shown(run));
    assert!(*f2 == *f1 && *d2 == *d1, "tables of {sizes:?}, room {room}, run {}", shown(run));
    assert!(f2.is_intact() && d2.is_intact() && out2.is_intact() && lent.is_unchanged());
    match given.answer {
        20 | 21 => assert!(f2.is_unchanged() && d2.is_unchanged() && out2.is_unchanged()),
        22 => assert!(both_zero(&f2, &d2) && out2.is_unchanged()),
        _ => assert!(out2[given.count as usize..] == out[given.count as usize..]),
    }
    given
}

/// Reads with both and compares reply, doubles and tables. Gives the reply and the doubles' buffer.
pub fn compare_read(
    random: &mut Random,
    sizes: (usize, usize),
    stream: &[u8],
    room: usize,
) -> (FpcReply, Vec<u64>) {
    let (f, d) = (lent_table(random, sizes.0), lent_table(random, sizes.1));
    let doubles: Vec<u64> = (0..room).map(|_| random.bits()).collect();
    let (mut f1, mut d1, mut doubles1) = (f.clone(), d.clone(), doubles.clone());
    let expected = reference::fpc_read(&mut f1, &mut d1, stream, &mut doubles1);
    let (mut f2, mut d2, mut doubles2) =
        (Guarded::new(&f, 1), Guarded::new(&d, 2), Guarded::new(&doubles, 3));
    let lent = Guarded::new(stream, 4);
    let given = fpc_reply(windlassow::fpc_read(&mut f2, &mut d2, &lent, &mut doubles2));
    let start = &stream[..stream.len().min(64)];
    assert_eq!(given, expected, "tables of {sizes:?}, room {room}, {} bytes {start:x?}", stream.len());
    assert!(*doubles2 == *doubles1, "doubles: tables of {sizes:?}, room {room}, bytes {start:x?}");
    assert!(*f2 == *f1 && *d2 == *d1, "tables of {sizes:?}, room {room}, bytes {start:x?}");
    assert!(f2.is_intact() && d2.is_intact() && doubles2.is_intact() && lent.is_unchanged());
    match given.answer {
        20 | 21 => assert!(f2.is_unchanged() && d2.is_unchanged() && doubles2.is_unchanged()),
        22 | 23 => assert!(both_zero(&f2, &d2) && doubles2.is_unchanged()),
        _ => assert!(doubles2[given.count as usize..] == doubles[given.count as usize..]),
    }
    (given, doubles1)
}

pub fn both_zero(f: &[u64], d: &[u64]) -> bool {
    f.iter().chain(d).all(|&entry| entry == 0)
}

pub fn shown(run: &[u64]) -> String {
    format!("of {}: {:x?}", run.len(), &run[..run.len().min(8)])
}

/// Writes a run with room to spare, reads it back, and gives its stream.
pub fn compare_both(random: &mut Random, size: usize, run: &[u64]) -> Vec<u8> {
    let (stream, _) = stream_of(size, run);
    let spare = random.below(4);
    let wrote = compare_write(random, (size, size), run, stream.len() + spare);
    assert_eq!(wrote, FpcReply { answer: 0, count: stream.len() as u32 });
    let (read, doubles) = compare_read(random, (size, size), &stream, run.len() + spare);
    assert_eq!(read, FpcReply { answer: 0, count: run.len() as u32 });
    assert_eq!(doubles[..run.len()], *run);
    stream
}
