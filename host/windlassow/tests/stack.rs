//! The largest blocks and runs in threads of just the stack that the interface and the header name.
//!
//! What a thread's stack holds before the call is part of it: the C library's own data of the thread and the calls of std,
//! some 5 KB together. If the stack is too small the test ends by a signal, and std names the thread.

use random::Random;
use reference::{floats, transform};
use std::thread;
use testing::{EXACT, FLOATS, INTEGERS, LOSSY, by_hand};
use windlassow::{
    Done, MAX_RUN_LEN, MAX_STREAM_LEN, MAX_WIDTH, MIN_LOWEST, Params, Refusal, STACK_BYTES, Transfer,
    bit_count, copy, fpc_read, fpc_write, read, store,
};

/// Does this in a thread of that stack.
fn in_a_small_thread<T: Send>(name: &str, call: impl FnOnce() -> T + Send) -> T {
    thread::scope(|scope| {
        let thread = thread::Builder::new().name(name.to_string()).stack_size(STACK_BYTES);
        thread.spawn_scoped(scope, call).unwrap().join().unwrap()
    })
}

fn params(kind: u32, mode: u32) -> Params {
    Params::from_numbers(kind, 4, mode, 32, MAX_WIDTH, MIN_LOWEST)
}

/// Blocks in one plane of which all 256 bits are ones that are still to be found, which takes the most calls within calls.
fn deepest() -> [(u32, u32, Vec<u32>); 4] {
    // A NaN of ones among zeros: the raw form makes 2^31 of it, and the differences of 2^31 0 0 0 are 2^31 everywhere.
    let mut floats = vec![0; 256];
    floats[0] = u32::MAX;
    // Lossy coefficients that are all 2^8, so that no half is rounded; and the same as floats, which are brought to
    // integers by a power of two.
    let lossy: Vec<u32> = transform::from_coefficients(&[1 << 8; 256], 4, transform::unlift);
    let lossy_floats = lossy.iter().map(|&word| (word as i32 as f32).to_bits()).collect();
    [
        (INTEGERS, EXACT, by_hand::longest(4)),
        (FLOATS, EXACT, floats),
        (INTEGERS, LOSSY, lossy),
        (FLOATS, LOSSY, lossy_floats),
    ]
}

/// Words of ones, which lossy mode does not take as floats; and a code in which one scan passes all places.
fn others() -> [(u32, u32, Vec<u32>); 4] {
    let ones = vec![u32::MAX; 256];
    [
        (INTEGERS, EXACT, ones.clone()),
        (FLOATS, EXACT, ones.clone()),
        (INTEGERS, LOSSY, ones),
        (INTEGERS, EXACT, by_hand::single(4, 255)),
    ]
}

/// The deepest blocks are what they should be. A plane of ones to be found is a test and a bit for each but the last: 511
/// bits. The floats have a head of 2 + 5 bits and plane 31; the lossy integers 23 empty planes, plane 8, and 8 planes of 256
/// bits.
#[test]
fn the_deepest_blocks() {
    let [longest, raw, lossy, lossy_floats] = deepest().map(|(kind, mode, words)| {
        let count = bit_count(params(kind, mode), &words);
        (count, words)
    });
    let done = |count, planes| Ok(Done { count, planes });
    assert_eq!(
        [longest.0, raw.0, lossy.0],
        [done(8_452, 32), done(7 + 511, 1), done(23 + 511 + 8 * 256, 23 + 1 + 8)]
    );
    let e = floats::common_exponent(&lossy_floats.1);
    let integers: Vec<u32> = lossy_floats.1.iter().map(|&word| floats::to_integer(e, word)).collect();
    let coefficients = transform::to_coefficients(&integers, 4, transform::lift);
    assert!(coefficients[0] != 0 && coefficients.iter().all(|&u| u == coefficients[0]));
}

#[test]
fn stores_and_reads() {
    for (kind, mode, words) in deepest().into_iter().chain(others()) {
        let p = params(kind, mode);
        let mut archive = vec![0; p.archive_len(1).unwrap()];
        let mut back = vec![0; 256];
        let name = format!("kind {kind}, mode {mode}");
        let stored = in_a_small_thread(&format!("store, {name}"), || store(p, &mut archive, 0, &words));
        assert_eq!(stored, bit_count(p, &words));
        let planes = stored.expect("the block fits").planes;
        let counted = in_a_small_thread(&format!("bit count, {name}"), || bit_count(p, &words));
        assert_eq!(counted, stored);
        let given = in_a_small_thread(&format!("read, {name}"), || read(p, &archive, 0, &mut back));
        assert_eq!(given, Ok(Done { count: 256, planes }));
        if mode == EXACT {
            assert_eq!(back, words);
        }
    }
}

/// Archives of 256 words to full slots: a slot of each of the exact blocks above, and then one of ones that cannot be read.
#[test]
fn copies() {
    for kind in [INTEGERS, FLOATS] {
        let p = params(kind, EXACT);
        let all = deepest().into_iter().chain(others()).filter(|block| (block.0, block.1) == (kind, EXACT));
        let blocks: Vec<Vec<u32>> = all.map(|(_, _, words)| words).collect();
        let mut archive = vec![0; p.archive_len(blocks.len() + 1).unwrap()];
        blocks.iter().enumerate().for_each(|(slot, words)| {
            store(p, &mut archive, slot, words).expect("the block fits");
        });
        let mut new = vec![0xFF; archive.len()];
        let name = format!("copy, kind {kind}");
        let copied = in_a_small_thread(&name, || copy(p, &archive, &mut new));
        assert_eq!(copied, Ok(blocks.len() + 1));
        for (slot, words) in blocks.iter().enumerate() {
            let mut back = vec![0; 256];
            assert!(read(p.with_width(0), &new, slot, &mut back).is_ok() && back == *words);
        }
        let bits = blocks.len() * MAX_WIDTH as usize;
        archive[bits.div_ceil(8)..].fill(0xFF);
        let refused = in_a_small_thread(&name, || copy(p, &archive, &mut new));
        assert_eq!(refused, Err(Refusal::UnreadableSlot { slot: blocks.len() }));
    }
}

/// The longest runs, of patterns that no table predicts.
#[test]
fn fpc_runs() {
    let mut random = Random::new(1);
    let run: Vec<u64> = (0..MAX_RUN_LEN).map(|_| random.bits()).collect();
    for size in [16, 1024] {
        let (mut f, mut d) = (vec![0; size], vec![0; size]);
        let (mut stream, mut back) = (vec![0; MAX_STREAM_LEN], vec![0; MAX_RUN_LEN]);
        let bytes = in_a_small_thread("FPC write", || fpc_write(&mut f, &mut d, &run, &mut stream)).unwrap();
        let doubles = in_a_small_thread("FPC read", || fpc_read(&mut f, &mut d, &stream[..bytes], &mut back));
        assert_eq!((doubles, &back), (Ok(MAX_RUN_LEN), &run));
    }
}

/// The same runs in one piece and in two, with bytes after them that are damage.
#[test]
fn transfers() {
    let mut random = Random::new(2);
    let run: Vec<u64> = (0..MAX_RUN_LEN).map(|_| random.bits()).collect();
    let zeros = vec![0; MAX_RUN_LEN];
    for (run, size) in [(&run, 16), (&run, 1024), (&zeros, 16), (&zeros, 1024)] {
        let mut stream = vec![0; MAX_STREAM_LEN];
        let bytes = fpc_write(&mut vec![0; size], &mut vec![0; size], run, &mut stream).unwrap();
        let mut doubles = vec![0; 2 * MAX_STREAM_LEN];
        for cut in [0, bytes / 2, bytes] {
            let open = || Transfer::open(vec![1; size], vec![2; size]);
            let mut transfer = in_a_small_thread("opening", open).unwrap();
            let mut feed = |piece: &[u8], doubles: &mut [u64]| {
                in_a_small_thread("piece", || transfer.feed(piece, doubles))
            };
            let given = feed(&stream[..cut], &mut doubles).unwrap();
            let rest = feed(&stream[cut..bytes], &mut doubles[given..]).unwrap();
            assert_eq!((given + rest, &doubles[..given + rest]), (run.len(), &run[..]));
            assert_eq!(in_a_small_thread("close", || transfer.clone().finish()), Ok(run.len()));
            let after = in_a_small_thread("damage", || transfer.feed(&stream, &mut doubles));
            assert_eq!(after, Err(Refusal::Damaged { doubles: 0 }));
        }
    }
}

/// Slots of ones: lossy mode reads them, and in exact mode none is a code, for 33N + 14 is more than the ones of any.
#[test]
fn reads_of_ones() {
    for (kind, mode) in [(INTEGERS, LOSSY), (FLOATS, LOSSY), (INTEGERS, EXACT), (FLOATS, EXACT)] {
        let p = params(kind, mode);
        let archive = vec![0xFF; p.archive_len(1).unwrap()];
        let mut back = vec![0; 256];
        let given = in_a_small_thread(&format!("read of ones, kind {kind}, mode {mode}"), || {
            read(p, &archive, 0, &mut back)
        });
        // Plane 31 takes 511 bits and each further one 256, 8,447 in all: every plane is there.
        let lossy = Ok(Done { count: 256, planes: 32 });
        assert_eq!(given.map_err(|refusal| refusal.number()), if mode == LOSSY { lossy } else { Err(11) });
    }
}
