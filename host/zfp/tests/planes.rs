//! The planes that libzfp's codes have whole, by themselves and beside the library's.

use random::{Random, rounds};
use reference::Params;
use testing::by_hand::planes::all;
use testing::{LOSSY, MIN_LOWEST, bits};
use zfp::bits::padded;
use zfp::classes::Call;
use zfp::compare::Comparison;
use zfp::libzfp::{Libzfp, checked, longest_code};
use zfp::make::any_block;
use zfp::planes::{planes_read, planes_within};

fn lib() -> Libzfp {
    Libzfp::find().unwrap_or_else(|message| panic!("{message}"))
}

/// Blocks whose planes are written out by hand, in slots of every width up to one more than the code, of the larger blocks
/// some.
#[test]
fn blocks_by_hand() {
    let lib = lib();
    for block in all() {
        let step = [1, 1, 3, 11][block.dimension as usize - 1];
        for planes in [1, 2, 5, 20, 28, 29, 30, 31, 32] {
            let uncut = block.code(planes).len();
            for width in (16..=uncut).step_by(step).chain([uncut.max(16), uncut.max(15) + 1]) {
                let (kind, dimension) = (block.kind, block.dimension);
                let p =
                    Params { kind, dimension, mode: LOSSY, planes, width: width as u32, lowest: MIN_LOWEST };
                let asked = planes_within(&lib, &checked(&p), &block.words);
                assert_eq!(asked, block.whole(planes, width), "{p:?}");
                let code = &bits(&block.code(planes))[..uncut.min(width)];
                let read = planes_read(&lib, &checked(&p), &padded(code, width));
                assert_eq!(read, block.whole(planes, width), "{p:?}");
            }
        }
    }
}

/// One block at every budget, with all planes: a cut at every place of its code. In the larger dimensions at some.
#[test]
fn a_block_at_every_budget() {
    let mut random = Random::new(10);
    let mut comparison = Comparison::new(lib());
    for (kind, dimension) in (0..8).map(|k| (k & 1, 1 + (k >> 1))) {
        let step = [1, 1, 5, 31][dimension as usize - 1];
        for _ in 0..rounds(4) {
            let words = any_block(&mut random, 4usize.pow(dimension));
            for width in (16..=longest_code(dimension) as u32).step_by(step) {
                let p = Params { kind, dimension, mode: LOSSY, planes: 32, width, lowest: MIN_LOWEST };
                comparison.block(&p, &words);
            }
        }
    }
    assert!(comparison.failures.is_empty(), "{:?}", comparison.failures);
    for (kind, mode, dimension, row) in comparison.tally.rows().filter(|row| row.3.blocks > 0) {
        let what = format!("{kind:?}, {mode:?}, dimension {dimension}");
        for asked in Call::ALL.map(|call| row.planes[call as usize]) {
            assert!(asked.times > 0, "{what}: libzfp was not asked");
            assert_eq!(asked.equal, asked.times, "{what}");
        }
    }
}
