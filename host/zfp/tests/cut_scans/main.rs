//! Slots whose budget ends inside a plane, read by the proved library, by the reference and by libzfp.
//!
//! Where it ends in a scan, the bit at the place that the scan has come to is set (document 02, M-104). Where it cuts the n
//! first bits of a plane or a test, none is. What must be read follows from the coefficients that were coded and from where the
//! code is cut; no reader has a part in it.

mod by_hand;
mod cuts;
mod trials;

use by_hand::ByHand;
use cuts::{Coded, End};
use random::{Random, rounds};
use reference::Params;
use reference::floats::{common_exponent, is_zero, to_integer};
use reference::transform::{lift, to_coefficients};
use std::collections::BTreeSet;
use testing::{FLOATS, LOSSY, MIN_LOWEST};
use trials::{Blocks, Trials};
use zfp::classes::{Class, some_not_finite};
use zfp::cuts::{budgets, cut_scan, places, places_of};
use zfp::make::MAKERS;
use zfp::tally::Origin;

/// Scans can be cut where `budgets` says, in three planes of four words: of all lists of up to 13 bits it is seen where they
/// end. No more than 11 can stand before such a cut.
#[test]
fn where_scans_can_be_cut() {
    let mut found = BTreeSet::new();
    for len in 1..=13 {
        for number in 0..1u32 << len {
            let bits: Vec<bool> = (0..len).map(|k| number >> k & 1 == 1).collect();
            found.extend(cut_scan(&bits, 4, 3).map(|place| (place, len)));
        }
    }
    let stated = places(4).filter(|place| place.plane >= 29);
    let stated = stated.flat_map(|place| budgets(place).map(move |budget| (place, budget)));
    assert_eq!(found, stated.collect());
}

/// Made slots: every plane, every place and every budget; in dimension 1, and in a long run in dimension 2, each with each. In
/// dimensions 3 and 4 some planes with some places, and every fifth and every thirteenth budget.
#[test]
fn every_cut_scan() {
    for blocks in Blocks::all() {
        let mut trials = Trials::new(blocks, 11);
        for (place, budgets) in blocks.scans() {
            let most = rounds([100, 20, 3, 3][blocks.dimension as usize - 1]);
            let step = budgets.len().div_ceil(most);
            if (place.plane as usize + place.coefficient) % blocks.step() == 0 {
                budgets.iter().step_by(step).for_each(|&budget| trials.cut_scan(place, budget));
            }
        }
        let budgets: Vec<usize> = blocks.budgets().step_by(blocks.step()).collect();
        for &budget in &budgets {
            let place = trials.random.pick(&places_of(blocks.len(), budget));
            trials.cut_scan(place, budget);
        }
        trials.end();
        let seen = &trials.seen[&End::Scan];
        // With N = 4 a scan in a higher plane has less than 16 bits, or 7 of floats, before it.
        let highest = [[27, 31], [30, 31]][blocks.kind as usize][usize::from(blocks.dimension > 1)];
        assert_eq!(seen.planes(), (0..=highest).collect(), "{blocks:?}");
        assert_eq!(seen.places(), (0..=blocks.len() - 2).collect(), "{blocks:?}");
        assert!(seen.budgets().is_superset(&budgets.into_iter().collect()), "{blocks:?}");
        assert!(4 * seen.changed > 3 * seen.slots, "{blocks:?}: {} of {}", seen.changed, seen.slots);
    }
}

/// Coefficients that are smaller from place to place, or all alike, of any magnitude. The last can have its highest one in this
/// plane.
fn falling(random: &mut Random, len: usize, plane: u32) -> Vec<u32> {
    let first = if random.once_in(2) { 0 } else { random.below(32) };
    let steps = random.below(33);
    let shift = |place: usize| (first + steps * place / len).min(31);
    let mut coefficients: Vec<u32> = (0..len).map(|place| random.word() >> shift(place)).collect();
    if random.once_in(2) {
        coefficients[len - 1] = (random.word() | 1 << 31) >> (31 - plane);
    }
    coefficients
}

/// Made slots that are cut in the n first bits or before a test, where no bit may be set; and that end with the known one of
/// place N-1, where the plane is whole. In every plane in which that can be.
#[test]
fn other_ends() {
    // The highest plane in which a budget can end so: of 16 bits or more, or of 7 of floats, with N = 4, and with larger N.
    let ends = [(End::FirstBits, [28, 30], 30), (End::Test, [28, 30], 31), (End::KnownOne, [28, 31], 31)];
    for blocks in Blocks::all() {
        let mut trials = Trials::new(blocks, 12);
        for plane in 0..32 {
            for _ in 0..rounds([300, 100, 40, 20][blocks.dimension as usize - 1]) {
                let coded = Coded::new(falling(&mut trials.random, blocks.len(), plane));
                for (end, ..) in ends {
                    let e = trials.any_e();
                    trials.any_cut(e, &coded, plane, end);
                }
            }
        }
        trials.end();
        for (end, of_four, highest) in ends {
            let seen = &trials.seen[&end];
            let highest = if blocks.dimension == 1 { of_four[blocks.kind as usize] } else { highest };
            assert_eq!(seen.planes(), (0..=highest).collect(), "{end:?} {blocks:?}");
            if blocks.dimension <= 2 && end != End::KnownOne {
                assert_eq!(seen.places(), (0..blocks.len()).collect(), "{end:?} {blocks:?}");
            }
        }
    }
}

/// The coefficients of a block, and its e. None for floats that have no planes or no code.
fn coded(blocks: Blocks, words: &[u32]) -> Option<(Option<u32>, Coded)> {
    let (mut e, mut integers) = (None, words.to_vec());
    if blocks.kind == FLOATS {
        if some_not_finite(words) || words.iter().all(|&word| is_zero(word)) {
            return None;
        }
        let common = common_exponent(words);
        e = Some(common);
        integers = words.iter().map(|&word| to_integer(common, word)).collect();
    }
    Some((e, Coded::new(to_coefficients(&integers, blocks.dimension, lift))))
}

/// Codes of blocks, stored by the proved library in slots that end in their scans: in all of them, in dimensions 3 and 4 in
/// some. And some that end elsewhere.
#[test]
fn codes_of_blocks() {
    for blocks in Blocks::all() {
        let mut trials = Trials::new(blocks, 13);
        for (_, make) in MAKERS {
            for _ in 0..rounds([20, 5, 2, 1][blocks.dimension as usize - 1]) {
                let words = make(&mut trials.random, blocks.len());
                if let Some((e, coded)) = coded(blocks, &words) {
                    store_and_read(&mut trials, &words, e, &coded);
                }
            }
        }
        trials.end();
        let ends: Vec<End> = trials.seen.keys().copied().collect();
        assert_eq!(ends, [End::FirstBits, End::Test, End::Scan, End::KnownOne], "{blocks:?}");
        let seen = &trials.seen[&End::Scan];
        assert!(seen.slots > 100 && seen.planes().len() > 10, "{blocks:?}: {} slots", seen.slots);
    }
}

fn store_and_read(trials: &mut Trials, words: &[u32], e: Option<u32>, coded: &Coded) {
    let Blocks { dimension, .. } = trials.blocks;
    let least = trials.blocks.least_budget();
    for cut in (0..32).flat_map(|plane| coded.cuts(plane)).filter(|cut| cut.budget >= least) {
        let often = match cut.end {
            End::FirstBits => [16, 64, 256, 1024],
            End::Test => [4, 8, 16, 32],
            End::Scan => [1, 1, 3, 9],
            End::KnownOne => [1; 4],
        };
        if !trials.random.once_in(often[dimension as usize - 1]) {
            continue;
        }
        let setting = trials.setting(e, &cut);
        let slot = trials.comparison.write(&setting.p, words).ours;
        assert_eq!(slot, Some(setting.slot(coded, &cut)), "{:?} {words:x?}", setting.p);
        trials.read(&setting, coded, &cut);
    }
}

/// Slots by hand. In dimension 3 libzfp has another coefficient of number 4.
#[test]
fn slots_by_hand() {
    for ByHand { kind, dimension, bits, planes, words } in by_hand::slots() {
        let mut trials = Trials::new(Blocks { kind, dimension }, 0);
        let p = Params { kind, dimension, mode: LOSSY, planes: 32, width: 16, lowest: MIN_LOWEST };
        let read = trials.comparison.read(&p, &testing::bits(bits), Origin::Made);
        assert_eq!((read.ours.as_ref(), read.reply.planes), (Some(&words), planes), "{bits}");
        assert_eq!(read.class, (dimension > 2).then_some(Class::TieOrder), "{bits}");
        assert!(dimension > 2 || read.theirs == words, "{bits}");
        assert!(trials.comparison.failures.is_empty(), "{:?}", trials.comparison.failures);
    }
}
