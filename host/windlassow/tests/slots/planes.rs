//! The planes that are reported: by hand, for cuts at every place of a plane, and of slots that no store has written.

use crate::common::*;
use crate::compare::*;
use crate::cuts::*;
use crate::damage::random_slot;
use crate::make::*;
use reference::Params;
use testing::by_hand::{indices, planes as on_paper};
use windlassow::{Done, MAX_WIDTH, bit_count, read, store};

/// Blocks whose planes are written out by hand, on the library alone: every width up to one more than the code, of the larger
/// blocks some.
#[test]
fn blocks_by_hand_at_every_width() {
    for block in on_paper::all() {
        let step = [1, 1, 3, 11][block.dimension as usize - 1];
        for planes in [1, 2, 5, 20, 28, 29, 30, 31, 32] {
            let uncut = block.code(planes).len();
            for width in (16..=uncut).step_by(step).chain([uncut.max(16), uncut.max(15) + 1, 8_462]) {
                let p = Params {
                    kind: block.kind,
                    dimension: block.dimension,
                    mode: LOSSY,
                    planes,
                    width: width as u32,
                    lowest: MIN_LOWEST,
                };
                let planes = block.whole(planes, width);
                let done = Ok(Done { count: uncut.min(width), planes });
                let mut archive = vec![0xFF; width.div_ceil(8)];
                assert_eq!(store(ours(&p), &mut archive, 0, &block.words), done, "{p:?}");
                assert_eq!(bit_count(ours(&p), &block.words), done, "{p:?}");
                let mut back = vec![0; block.words.len()];
                let given = read(ours(&p), &archive, 0, &mut back);
                assert_eq!(given, Ok(Done { count: back.len(), planes }), "{p:?}");
            }
        }
    }
}

/// Values of nearly one magnitude whose signs alternate along every axis. Along an axis a -a a -a lifts to 0 a/2 0 -a, so that
/// the largest coefficient is the last. The signs are such that it is negative: of large values plane 31 has its one there.
fn alternating(random: &mut Random, kind: u32, dimension: u32) -> Vec<u32> {
    let negative = dimension % 2 == 0;
    let shift = if random.once_in(2) { 0 } else { random.below(24) };
    every(random, 4usize.pow(dimension), |random, place| {
        let is_negative = negative ^ (indices(place).iter().sum::<usize>() % 2 == 1);
        let more = random.word() >> 20;
        match (kind, is_negative) {
            (INTEGERS, false) => (0x3800_0000 | more) >> shift,
            (INTEGERS, true) => ((0x3800_0000 | more) >> shift).wrapping_neg(),
            (_, false) => 0x417F_0000 | more,
            (_, true) => 0xC17F_0000 | more,
        }
    })
}

/// A lossy block and its code in a slot that takes every one.
struct Cut {
    p: Params,
    words: Vec<u32>,
    code: Vec<bool>,
    places: Places,
}

impl Cut {
    /// A block that is stored, and not as a single 0.
    fn new(random: &mut Random, kind: u32, dimension: u32, planes: u32) -> Cut {
        let head = head_len(kind);
        let p = Params { kind, dimension, mode: LOSSY, planes, width: MAX_WIDTH, lowest: MIN_LOWEST };
        loop {
            let maker = random.pick(&[0, 0, 0, 3, 4, 5, 6, 7, 9, 10, 12, 13]);
            let words = match random.below(4) {
                0 => alternating(random, kind, dimension),
                _ => block(random, maker, block_len(&p)),
            };
            let (reply, archive) = compare_store(&p, &vec![0; MAX_WIDTH.div_ceil(8) as usize], 0, &words);
            if reply.answer == 0 && reply.count > 1 {
                let code = slot_bits(&p, &archive, 0)[..reply.count as usize].to_vec();
                let places = Places::of(&code[head..], block_len(&p), planes);
                return Cut { p, words, code, places };
            }
        }
    }

    /// Every so many of the widths from 16 to one more than the code has bits, those around the end of a plane, and some that
    /// end in each way.
    fn widths(&self, random: &mut Random, step: usize) -> Vec<usize> {
        let head = head_len(self.p.kind);
        let mut widths: Vec<usize> = (16 + random.below(step)..=self.code.len() + 1).step_by(step).collect();
        widths.extend([16, 17, 18]);
        for &end in &self.places.ends {
            widths.extend((head + end - 1..=head + end + 1).filter(|&width| width >= 16));
        }
        for end in ENDS {
            let budgets = self.places.that_end(end, 16 - head);
            if !budgets.is_empty() {
                widths.extend((0..6).map(|_| head + random.pick(&budgets)));
            }
        }
        widths.sort();
        widths.dedup();
        widths
    }

    /// Stores, counts and reads in a slot of that width, and looks at the planes and at what the cut reads as.
    fn compare(&self, width: usize, seen: &mut Seen) {
        let p = Params { width: width as u32, ..self.p };
        let archive = vec![0xFF; width.div_ceil(8)];
        let planes = compare_all(&p, &archive, 0, &self.words).planes;
        let ends: Vec<usize> = self.places.ends.iter().map(|end| head_len(p.kind) + end).collect();
        let whole = ends.iter().filter(|&&end| end <= width).count();
        assert_eq!(planes as usize, whole, "{p:?} {:x?}", self.words);
        let mut slot = self.code[..self.code.len().min(width)].to_vec();
        slot.resize(width, false);
        reads_as_if_followed(&p, &slot);
        seen.count(&p, &slot, planes);
        let begins = if whole == 0 { head_len(p.kind) } else { ends[whole - 1] };
        if whole < ends.len() && width > begins && !self.code[width..ends[whole]].contains(&true) {
            seen.count_lost_zeros();
        }
    }
}

/// Of each kind and dimension one block at every width and further ones at some. Every way in which a slot can end, and
/// every number of planes, must have come. In dimension 1 the first plane fits every slot.
fn cuts_in(dimension: u32, blocks: usize, step: usize) {
    for kind in [INTEGERS, FLOATS] {
        let mut random = Random::new(u64::from(18 + 4 * kind + dimension));
        let mut seen = Seen::default();
        for number in 0..rounds(blocks) {
            let planes = match number {
                // Every width of 32 planes of 256 words would take long.
                0 if dimension == 4 => 6,
                _ if number % 2 == 0 => 32,
                _ => 1 + number as u32 / 2 % 32,
            };
            let cut = Cut::new(&mut random, kind, dimension, planes);
            for width in cut.widths(&mut random, if number == 0 { 1 } else { step }) {
                cut.compare(width, &mut seen);
            }
        }
        let what = format!("kind {kind}, dimension {dimension}");
        seen.must_include(&what, u32::from(dimension == 1), 3);
        seen.must_lose_zeros(&what, 3);
    }
}

#[test]
fn cuts_at_every_place_of_a_plane_of_4_words() {
    cuts_in(1, 70, 1);
}

#[test]
fn cuts_at_every_place_of_a_plane_of_16_words() {
    cuts_in(2, 64, 7);
}

#[test]
fn cuts_at_every_place_of_a_plane_of_64_words() {
    cuts_in(3, 16, 31);
}

#[test]
fn cuts_at_every_place_of_a_plane_of_256_words() {
    cuts_in(4, 10, 211);
}

/// A budget for a code: in its first plane or in any, with an end of any sort, or all that the code has.
fn any_budget(random: &mut Random, places: &Places, least: usize) -> usize {
    let plane = random.below(places.ends.len());
    let begins = if plane == 0 { 0 } else { places.ends[plane - 1] };
    let sorts: Vec<Vec<usize>> =
        ENDS.map(|end| places.that_end(end, least)).into_iter().filter(|sort| !sort.is_empty()).collect();
    match random.below(6) {
        0 => least + random.below(places.ends[0] + 1),
        1 => places.ends[places.ends.len() - 1] + random.below(2),
        2 | 3 if !sorts.is_empty() => {
            let sort = &sorts[random.below(sorts.len())];
            random.pick(sort)
        }
        _ => begins + random.below(places.ends[plane] - begins + 1),
    }
}

/// A slot of any coefficients, cut anywhere; what follows the code is any bits.
fn made_slot(random: &mut Random, kind: u32, dimension: u32) -> (Params, Vec<bool>) {
    let planes = any_planes(random);
    let (high, low) = (random.pick(&[0, 1, 20]), random.word_below(32));
    let (high, often) = (high + random.word_below(8), 1 + random.below(4));
    let coefficients: Vec<u32> = (0..4usize.pow(dimension))
        .map(|_| if random.once_in(often) { random.word() >> high >> low << low } else { 0 })
        .collect();
    let code = reference::planes::code(&coefficients, planes);
    let head = head_len(kind);
    let budget = any_budget(random, &Places::of(&code, coefficients.len(), planes), 16 - head);
    let width = (head + budget).clamp(16, MAX_WIDTH as usize);
    let mut slot: Vec<bool> = (0..head).map(|t| t == 0 || random.once_in(2)).collect();
    slot.extend(code);
    slot.truncate(width);
    slot.resize_with(width, || random.once_in(2));
    (Params { kind, dimension, mode: LOSSY, planes, width: width as u32, lowest: MIN_LOWEST }, slot)
}

/// Lossy slots that no store has written, whole or with a damaged bit, and slots of any bits.
#[test]
fn planes_of_slots_that_no_store_has_written() {
    for (kind, dimension, _) in all_kinds().filter(|kind| kind.2 == LOSSY) {
        let mut random = Random::new(u64::from(30 + 4 * kind + dimension));
        let (mut made, mut damaged) = (Seen::default(), Seen::default());
        for _ in 0..rounds_in(dimension, 4_000) {
            let (p, mut slot) = made_slot(&mut random, kind, dimension);
            compare_slot(&p, &slot, &mut made);
            let t = random.below(slot.len());
            slot[t] = !slot[t];
            compare_slot(&p, &slot, &mut damaged);
            let any = slot_bits(&p, &random_slot(&mut random, &p), 0);
            compare_slot(&p, &any, &mut damaged);
        }
        let least = u32::from(dimension == 1);
        made.must_include(&format!("made, kind {kind}, dimension {dimension}"), least, 3);
        damaged.must_include(&format!("damaged, kind {kind}, dimension {dimension}"), least, 1);
    }
}

fn compare_slot(p: &Params, slot: &[bool], seen: &mut Seen) {
    let (given, _) = compare_read(p, &archive_of(slot), 0, block_len(p));
    reads_as_if_followed(p, slot);
    seen.count(p, slot, given.planes);
}

/// Zeros of both signs, which are a single 0 as floats, and every slot that begins with one.
#[test]
fn a_single_0_has_no_planes() {
    let mut random = Random::new(40);
    for dimension in 1..=4 {
        let n = 4usize.pow(dimension);
        for mode in [LOSSY, EXACT] {
            let p = Params {
                kind: FLOATS,
                dimension,
                mode,
                planes: any_planes(&mut random),
                width: 64,
                lowest: MIN_LOWEST,
            };
            let reply = compare_all(&p, &[0xFF; 8], 0, &vec![0; n]);
            assert_eq!((reply.answer, reply.count, reply.planes), (0, 1, 0));
        }
        let p = Params { kind: FLOATS, dimension, mode: LOSSY, planes: 32, width: 64, lowest: MIN_LOWEST };
        let zeros = every(&mut random, n, |random, _| random.word() & 0x8000_0000);
        let reply = compare_all(&p, &[0xFF; 8], 0, &zeros);
        assert_eq!((reply.answer, reply.count, reply.planes), (0, 1, 0));
        let mut slot = random.bytes(8);
        slot[0] &= 0xFE;
        assert_eq!(compare_read(&p, &slot, 0, n).0.planes, 0);
    }
}
