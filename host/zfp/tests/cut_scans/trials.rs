//! Slots that are read by the proved library, the reference and libzfp, and held to what their coefficients and the cut say.

use crate::cuts::{Coded, Cut, End};
use random::Random;
use reference::bits::number;
use reference::code::float_planes;
use reference::floats::{exponent, to_pattern};
use reference::transform::{from_coefficients, unlift};
use reference::{Params, planes};
use std::collections::{BTreeMap, BTreeSet};
use std::ops::RangeInclusive;
use testing::{FLOATS, LOSSY, MIN_LOWEST};
use zfp::classes::{Class, scale_underflows, ties_differ};
use zfp::compare::Comparison;
use zfp::cuts::{Place, budgets, cut_at, places, slot_cut_in_scan};
use zfp::libzfp::{Libzfp, checked};
use zfp::tally::Origin;

/// A kind and a dimension of lossy blocks.
#[derive(Clone, Copy, Debug)]
pub struct Blocks {
    pub kind: u32,
    pub dimension: u32,
}

impl Blocks {
    pub fn all() -> impl Iterator<Item = Blocks> {
        (0..8).map(|k| Blocks { kind: k & 1, dimension: 1 + (k >> 1) })
    }

    /// N.
    pub fn len(self) -> usize {
        4usize.pow(self.dimension)
    }

    /// The bits before the planes.
    fn head(self) -> usize {
        if self.kind == FLOATS { 9 } else { 0 }
    }

    /// The least bits of planes. W is 16 or more.
    pub fn least_budget(self) -> usize {
        16 - self.head()
    }

    /// Of planes, places and budgets all are tried in dimensions 1 and 2, in the others some.
    pub fn step(self) -> usize {
        [1, 1, 5, 13][self.dimension as usize - 1]
    }

    /// The budgets that can end in a scan.
    pub fn budgets(self) -> RangeInclusive<usize> {
        let n = self.len();
        self.least_budget()..=2 * n - 3 + 31 * (n - 1)
    }

    /// The places at which a scan can be cut, each with its budgets.
    pub fn scans(self) -> impl Iterator<Item = (Place, Vec<usize>)> {
        let with_budgets = move |place| {
            let least = self.least_budget();
            (place, budgets(place).filter(|&budget| budget >= least).collect::<Vec<_>>())
        };
        places(self.len()).map(with_budgets).filter(|(_, budgets)| !budgets.is_empty())
    }
}

/// How a slot is read.
pub struct Setting {
    pub p: Params,
    e: Option<u32>,
}

impl Setting {
    /// The slot that holds the code of these coefficients as far as the cut.
    pub fn slot(&self, coded: &Coded, cut: &Cut) -> Vec<bool> {
        let head = self.e.map_or(Vec::new(), |e| [vec![true], number(e, 8)].concat());
        [&head, &coded.bits[..cut.budget]].concat()
    }

    /// The words of these coefficients.
    fn words(&self, coefficients: &[u32]) -> Vec<u32> {
        let integers = from_coefficients(coefficients, self.p.dimension, unlift);
        match self.e {
            Some(e) => integers.into_iter().map(|integer| to_pattern(e, integer)).collect(),
            None => integers,
        }
    }

    /// Class C: libzfp's scale is 0.
    fn underflows(&self) -> bool {
        self.e.is_some_and(scale_underflows)
    }

    /// Whether one bit of one coefficient is always seen in the words.
    ///
    /// Integers: reading along an axis ends with x+w, x-w, y+z and y-z. If these stay and not all four values do, then x and w
    /// have moved by 2^31, or y and z, and no single coefficient of a line moves both so. So some word of the line is another,
    /// and each line along the next axis has at most one such word. Floats: some word moves by about 2^plane or more, and the
    /// last of its 24 bits is 2^7 or less, if it is no infinity.
    fn shows(&self, plane: u32) -> bool {
        self.e.is_none_or(|e| plane >= 9 && (8..254).contains(&e))
    }
}

/// What was read.
#[derive(Default)]
pub struct Seen {
    pub slots: usize,
    /// Slots whose words would be others without the one of the cut scan.
    pub changed: usize,
    /// Where the budget ended.
    pub cuts: BTreeSet<(Place, usize)>,
    /// Why libzfp's words were others.
    pub classes: BTreeSet<Class>,
}

impl Seen {
    pub fn planes(&self) -> BTreeSet<u32> {
        self.cuts.iter().map(|cut| cut.0.plane).collect()
    }

    pub fn places(&self) -> BTreeSet<usize> {
        self.cuts.iter().map(|cut| cut.0.coefficient).collect()
    }

    pub fn budgets(&self) -> BTreeSet<usize> {
        self.cuts.iter().map(|cut| cut.1).collect()
    }
}

/// Slots of one kind and dimension.
pub struct Trials {
    pub blocks: Blocks,
    pub comparison: Comparison,
    pub random: Random,
    pub seen: BTreeMap<End, Seen>,
}

impl Trials {
    pub fn new(blocks: Blocks, seed: u64) -> Trials {
        let lib = Libzfp::find().unwrap_or_else(|message| panic!("{message}"));
        let comparison = Comparison::new(lib);
        Trials { blocks, comparison, random: Random::new(seed), seen: BTreeMap::new() }
    }

    /// Any e, if there is one: mostly from 8 on.
    pub fn any_e(&mut self) -> Option<u32> {
        let e = if self.random.once_in(8) { self.random.word_below(8) } else { self.random.between(8, 255) };
        (self.blocks.kind == FLOATS).then_some(e)
    }

    /// P, or q, such that the plane of the cut is among those that are read.
    pub fn setting(&mut self, e: Option<u32>, cut: &Cut) -> Setting {
        let Blocks { kind, dimension } = self.blocks;
        let read = self.random.between(32 - cut.place.plane, 32);
        let (planes, lowest) = match e {
            Some(e) if self.random.once_in(2) => (32, exponent(e) + 2 * (dimension as i32 + 1) - read as i32),
            _ => (read, MIN_LOWEST),
        };
        let width = (self.blocks.head() + cut.budget) as u32;
        Setting { p: Params { kind, dimension, mode: LOSSY, planes, width, lowest }, e }
    }

    /// Has a slot read that is made for a scan to be cut there.
    pub fn cut_scan(&mut self, place: Place, budget: usize) {
        let coded = Coded::new(cut_at(&mut self.random, self.blocks.len(), place, budget));
        let cut = Cut { place, end: End::Scan, budget };
        let e = self.any_e();
        let setting = self.setting(e, &cut);
        self.read(&setting, &coded, &cut);
    }

    /// Has the code of these coefficients read as far as any cut of the plane that ends so, if there is one.
    pub fn any_cut(&mut self, e: Option<u32>, coded: &Coded, plane: u32, end: End) {
        let least = self.blocks.least_budget();
        let fits = |cut: &Cut| cut.end == end && cut.budget >= least;
        let cuts: Vec<Cut> = coded.cuts(plane).into_iter().filter(fits).collect();
        if !cuts.is_empty() {
            let cut = self.random.pick(&cuts);
            let setting = self.setting(e, &cut);
            self.read(&setting, coded, &cut);
        }
    }

    /// Has the code of these coefficients read as far as the cut.
    pub fn read(&mut self, setting: &Setting, coded: &Coded, cut: &Cut) {
        let (p, code) = (&setting.p, &coded.bits[..cut.budget]);
        let what = format!("{p:?}, e {:?}, {cut:?}", setting.e);
        let slot = setting.slot(coded, cut);
        let is_scan = cut.end == End::Scan;
        let found = slot_cut_in_scan(&checked(p), &slot);
        assert_eq!(found, is_scan.then_some((cut.place, cut.budget)), "{what}");
        let coefficients = coded.read(cut);
        let planes = setting.e.map_or(p.planes, |e| float_planes(&checked(p), e));
        let by_reference: (Vec<u32>, u32) = planes::read(code, self.blocks.len(), planes);
        assert_eq!((&by_reference.0, by_reference.1), (&coefficients, cut.whole()), "{what}");

        let read = self.comparison.read(p, &slot, Origin::Made);
        let words = setting.words(&coefficients);
        assert_eq!((read.ours.as_ref(), read.reply.planes), (Some(&words), cut.whole()), "{what}");
        if !setting.underflows() {
            let in_libzfps_order = self.comparison.lib.orders(p.dimension).to_ours(&coefficients);
            assert_eq!(read.theirs, setting.words(&in_libzfps_order), "{what}");
            assert!(ties_differ(p.dimension) || read.theirs == words, "{what}");
        }
        let is_changed = words != setting.words(&coded.before(cut.place));
        assert!(is_changed || !is_scan || !setting.shows(cut.place.plane), "{what}");
        self.note(cut, read.class, is_changed);
    }

    fn note(&mut self, cut: &Cut, class: Option<Class>, is_changed: bool) {
        let seen = self.seen.entry(cut.end).or_default();
        seen.slots += 1;
        seen.changed += usize::from(is_changed);
        seen.cuts.insert((cut.place, cut.budget));
        seen.classes.extend(class);
    }

    /// Nothing has failed, and libzfp's words were others in class C and in the order's alone, and in these they were.
    pub fn end(&self) {
        let failures = &self.comparison.failures;
        assert!(failures.is_empty(), "{} failures, the first: {}", failures.len(), failures[0]);
        let underflow = (self.blocks.kind == FLOATS).then_some(Class::ScaleUnderflow);
        let order = ties_differ(self.blocks.dimension).then_some(Class::TieOrder);
        let classes: BTreeSet<Class> = self.seen.values().flat_map(|seen| seen.classes.clone()).collect();
        assert_eq!(classes, underflow.into_iter().chain(order).collect(), "{:?}", self.blocks);
    }
}
