//! The counts of a comparison, for each kind, mode and dimension.

use crate::classes::{Call, Class};
use crate::cuts::Place;
use reference::Params;
use reference::params::{Checked, Kind, Mode};
use std::collections::BTreeSet;
use windlassow::MIN_LOWEST;

/// Where a slot comes from.
#[derive(Clone, Copy, Debug, PartialEq, Eq)]
pub enum Origin {
    /// The proved library and libzfp have both written it.
    Both,
    /// The proved library has written it, libzfp writes the block otherwise.
    Ours,
    /// libzfp has written it, the proved library writes the block otherwise or refuses it.
    Theirs,
    /// A written slot with damaged bits.
    Damaged,
    /// Bits that no store has written.
    Made,
}

/// The number of origins.
pub const ORIGINS: usize = 5;

/// How often libzfp was asked for the planes that a lossy slot has whole.
#[derive(Clone, Copy, Debug, Default, PartialEq, Eq)]
pub struct Asked {
    /// All times.
    pub times: u64,
    /// The times that it gave those which the proved library reports.
    pub equal: u64,
}

/// The planes of lossy floats with a lowest exponent q above -300: of how many blocks or slots it left none, fewer than P or
/// all P.
#[derive(Clone, Copy, Debug, Default, PartialEq, Eq)]
pub struct Left {
    /// None.
    pub none: u64,
    /// Some, but fewer than P.
    pub fewer: u64,
    /// P.
    pub all: u64,
}

/// Lossy slots whose budget ends in a scan.
#[derive(Clone, Debug, Default)]
pub struct CutScans {
    /// All of them.
    pub slots: u64,
    /// The planes in which the scans were.
    pub planes: BTreeSet<u32>,
    /// The places that they had come to.
    pub places: BTreeSet<usize>,
    /// The bits of planes that the slots had.
    pub budgets: BTreeSet<usize>,
    /// Slots that both read as the same words.
    pub words_equal: u64,
    classes: [u64; Class::ALL.len()],
}

impl CutScans {
    /// The slots whose words differ in a class.
    pub fn count(&self, class: Class) -> u64 {
        self.classes[class.index()]
    }
}

/// What was seen of one kind, mode and dimension.
#[derive(Clone, Debug, Default)]
pub struct Row {
    /// Blocks written by both.
    pub blocks: u64,
    /// Blocks whose codes are the same, bit for bit and in length.
    pub codes_equal: u64,
    /// Blocks of whose codes both report the same number of bits.
    pub counts_equal: u64,
    /// Planes asked for, by the call.
    pub planes: [Asked; Call::ALL.len()],
    /// Planes that q left, by the call.
    pub left: [Left; Call::ALL.len()],
    /// Slots read by both, by their origin.
    pub slots: [u64; ORIGINS],
    /// Slots that both read as the same words.
    pub words_equal: u64,
    /// Slots that end in a scan.
    pub cut_scans: CutScans,
    classes: [[u64; Class::ALL.len()]; Call::ALL.len()],
}

impl Row {
    /// Notes whether libzfp gave the planes that were reported.
    pub fn note_planes(&mut self, call: Call, same: bool) {
        let asked = &mut self.planes[call as usize];
        asked.times += 1;
        asked.equal += u64::from(same);
    }

    /// Notes how many planes q left of lossy floats.
    pub fn note_left(&mut self, call: Call, p: &Checked, planes: u32) {
        if p.lowest == MIN_LOWEST {
            return;
        }
        let left = &mut self.left[call as usize];
        match planes {
            0 => left.none += 1,
            _ if planes < p.planes => left.fewer += 1,
            _ => left.all += 1,
        }
    }

    /// Notes a slot that ends in a scan at this place, the bits of its planes, and the class, if its words differ.
    pub fn note_cut_scan(&mut self, place: Place, budget: usize, class: Option<Class>) {
        let cut = &mut self.cut_scans;
        cut.slots += 1;
        cut.planes.insert(place.plane);
        cut.places.insert(place.coefficient);
        cut.budgets.insert(budget);
        match class {
            Some(class) => cut.classes[class.index()] += 1,
            None => cut.words_equal += 1,
        }
    }

    /// Notes the class of an outcome, if it is different.
    pub fn note(&mut self, call: Call, class: Option<Class>) {
        if let Some(class) = class {
            self.classes[call as usize][class.index()] += 1;
        }
    }

    /// The differences of a class.
    pub fn count(&self, call: Call, class: Class) -> u64 {
        self.classes[call as usize][class.index()]
    }

    /// All differences.
    pub fn differences(&self, call: Call) -> u64 {
        self.classes[call as usize].iter().sum()
    }
}

/// One row for each kind, mode and dimension.
#[derive(Clone, Debug, Default)]
pub struct Tally {
    rows: [Row; 16],
}

impl Tally {
    /// The row of these parameters.
    pub fn row(&mut self, p: &Params) -> &mut Row {
        let index = 8 * p.kind + 4 * p.mode + p.dimension - 1;
        &mut self.rows[index as usize]
    }

    /// All rows, each with its kind, mode and dimension.
    pub fn rows(&self) -> impl Iterator<Item = (Kind, Mode, u32, &Row)> {
        self.rows.iter().enumerate().map(|(index, row)| {
            let kind = if index < 8 { Kind::Integers } else { Kind::Floats };
            let mode = if index & 4 == 0 { Mode::Lossy } else { Mode::Exact };
            (kind, mode, 1 + (index as u32 & 3), row)
        })
    }

    /// What is wrong with the classes: one that is stated and never occurs, or occurs where it is not stated. Likewise with
    /// the planes that q leaves, and with slots that end in a scan.
    pub fn complaints(&self) -> Vec<String> {
        let mut complaints = Vec::new();
        let every = || Call::ALL.into_iter().flat_map(|call| Class::ALL.map(|class| (call, class)));
        for (kind, mode, dimension, row) in self.rows() {
            let takes_notice = kind == Kind::Floats && mode == Mode::Lossy;
            for Left { none, fewer, all } in row.left {
                if [none, fewer, all].iter().any(|&count| takes_notice != (count > 0)) {
                    complaints.push(format!(
                        "{kind:?}, {mode:?}, dimension {dimension}: of q {none}, {fewer} and {all}"
                    ));
                }
            }
            let cut = row.cut_scans.slots;
            if (mode == Mode::Lossy) != (cut > 0) {
                complaints.push(format!("{kind:?}, {mode:?}, dimension {dimension}: {cut} cut scans"));
            }
            for (call, class) in every() {
                let count = row.count(call, class);
                if class.is_stated(call, kind, mode, dimension) != (count > 0) {
                    complaints.push(format!(
                        "{call:?}, {kind:?}, {mode:?}, dimension {dimension}: {count} differences of class {}, {}",
                        class.letter(),
                        class.name()
                    ));
                }
            }
        }
        complaints
    }
}
