//! The whole comparison, part by part.

use crate::compare::Comparison;
use crate::cuts::{Place, budgets, places, places_of};
use crate::libzfp::{Libzfp, checked, longest_code};
use crate::make::{MAKERS, any_block, block_of_field};
use crate::slots::{damage, headed_slot, random_slot, slot_cut_at, slot_of_e};
use crate::tally::Origin;
use random::Random;
use reference::Params;
use windlassow::{MAX_LOWEST, MIN_LOWEST};

/// Every kind, mode and dimension.
fn all_kinds() -> impl Iterator<Item = Params> {
    (0..16).map(|k| Params {
        kind: k >> 3,
        mode: k >> 2 & 1,
        dimension: 1 + (k & 3),
        planes: 32,
        width: 0,
        lowest: MIN_LOWEST,
    })
}

const FLOATS: u32 = 1;
const LOSSY: u32 = 0;

/// The kind and mode that look at q, in every dimension.
fn lossy_floats() -> impl Iterator<Item = Params> {
    all_kinds().filter(|p| p.kind == FLOATS && p.mode == LOSSY)
}

fn block_len(p: &Params) -> usize {
    4usize.pow(p.dimension)
}

fn any_planes(random: &mut Random) -> u32 {
    if random.once_in(3) { 32 } else { random.between(1, 32) }
}

/// The narrowest and the widest slot.
const NARROWEST: u32 = 16;
const WIDEST: u32 = 8462;

/// The bits before the planes of lossy floats.
const LOSSY_HEAD: u32 = 9;

/// Of many numbers all are tried in dimensions 1 and 2, in the others one in so many.
fn step(p: &Params) -> u32 {
    [1, 1, 5, 13][p.dimension as usize - 1]
}

/// The slot of 8 bits a value: W = 0 stands for it in lossy mode. In exact mode, where many blocks are too long for it, it is named.
fn eight_a_value(p: &Params) -> u32 {
    if p.mode == LOSSY { 0 } else { 8 * block_len(p) as u32 }
}

/// Widths of every size: for lossy blocks mostly those that cut their codes, for exact ones mostly wide enough.
fn any_width(random: &mut Random, p: &Params) -> u32 {
    let longest = longest_code(p.dimension) as u32;
    let (narrow, about, any) =
        (random.between(16, 64), random.between(16, longest), random.between(16, WIDEST));
    if p.mode == LOSSY {
        random.pick(&[eight_a_value(p), narrow, about, about, longest, any])
    } else {
        random.pick(&[eight_a_value(p), about, longest, longest, longest, any])
    }
}

/// A comparison with a generator of its own.
struct Run {
    comparison: Comparison,
    random: Random,
    scale: usize,
}

/// Runs all parts. `scale` multiplies the number of blocks and slots.
pub fn run(lib: Libzfp, seed: u64, scale: usize) -> Comparison {
    let mut run = Run { comparison: Comparison::new(lib), random: Random::new(seed), scale };
    run.every_way_of_making_blocks();
    run.every_width();
    run.every_number_of_planes();
    run.every_exponent_field();
    run.every_budget();
    run.damaged_slots();
    run.made_slots();
    run.every_e();
    run.every_lowest();
    run.lowest_around_every_exponent();
    run.lowest_around_every_e();
    run.every_cut_scan();
    run.comparison
}

impl Run {
    /// How often something is done in a dimension. A comparison of larger blocks takes longer.
    fn rounds(&self, p: &Params, count: usize) -> usize {
        (count * self.scale).div_ceil([1, 1, 5, 20][p.dimension as usize - 1])
    }

    /// The numbers up to `last`: all of them in dimensions 1 and 2, in the others some, of every remainder by 8.
    fn some_of(&mut self, p: &Params, last: u32) -> impl Iterator<Item = u32> + use<> {
        let step = step(p);
        (NARROWEST + self.random.word_below(step)..=last).step_by(step as usize)
    }

    fn every_way_of_making_blocks(&mut self) {
        for p in all_kinds() {
            for (_, make) in MAKERS {
                for _ in 0..self.rounds(&p, 400) {
                    let width = any_width(&mut self.random, &p);
                    let p = Params { planes: any_planes(&mut self.random), width, ..p };
                    let words = make(&mut self.random, block_len(&p));
                    self.comparison.block(&p, &words);
                }
            }
        }
    }

    fn every_width(&mut self) {
        for p in all_kinds() {
            for _ in 0..self.scale {
                for width in std::iter::once(eight_a_value(&p)).chain(self.some_of(&p, WIDEST)) {
                    let p = Params { planes: any_planes(&mut self.random), width, ..p };
                    let words = any_block(&mut self.random, block_len(&p));
                    self.comparison.block(&p, &words);
                }
            }
        }
    }

    fn every_number_of_planes(&mut self) {
        for p in all_kinds() {
            for planes in 1..=32 {
                for _ in 0..self.rounds(&p, 60) {
                    let p = Params { planes, width: any_width(&mut self.random, &p), ..p };
                    let words = any_block(&mut self.random, block_len(&p));
                    self.comparison.block(&p, &words);
                }
            }
        }
    }

    /// Floats of every largest exponent field. Both scales fail somewhere among the low ones.
    fn every_exponent_field(&mut self) {
        for p in all_kinds().filter(|p| p.kind == FLOATS) {
            for field in 0..255 {
                for _ in 0..self.rounds(&p, 8) {
                    let width = any_width(&mut self.random, &p);
                    let p = Params { planes: any_planes(&mut self.random), width, ..p };
                    let words = block_of_field(&mut self.random, block_len(&p), field);
                    self.comparison.block(&p, &words);
                }
            }
        }
    }

    /// One block at every budget: cuts at every place of its code.
    fn every_budget(&mut self) {
        for p in all_kinds().filter(|p| p.mode == LOSSY) {
            for _ in 0..self.rounds(&p, 8) {
                let p = Params { planes: any_planes(&mut self.random), ..p };
                let words = any_block(&mut self.random, block_len(&p));
                for width in self.some_of(&p, longest_code(p.dimension) as u32) {
                    self.comparison.block(&Params { width, ..p }, &words);
                }
            }
        }
    }

    fn damaged_slots(&mut self) {
        for p in all_kinds() {
            for _ in 0..self.rounds(&p, 3000) {
                let width = any_width(&mut self.random, &p);
                let p = Params { planes: any_planes(&mut self.random), width, ..p };
                let words = any_block(&mut self.random, block_len(&p));
                let Some(mut slot) = self.comparison.block(&p, &words) else {
                    continue;
                };
                damage(&mut self.random, &mut slot);
                self.comparison.read(&p, &slot, Origin::Damaged);
            }
        }
    }

    fn made_slots(&mut self) {
        for p in all_kinds() {
            for _ in 0..self.rounds(&p, 6000) {
                let width = any_width(&mut self.random, &p);
                let p = Params { planes: any_planes(&mut self.random), width, ..p };
                let slot = if self.random.once_in(2) {
                    random_slot(&mut self.random, checked(&p).width)
                } else {
                    headed_slot(&mut self.random, &checked(&p))
                };
                self.comparison.read(&p, &slot, Origin::Made);
            }
        }
    }

    /// Slots of floats with every e.
    fn every_e(&mut self) {
        for p in all_kinds().filter(|p| p.kind == FLOATS) {
            for e in 0..256 {
                for _ in 0..self.rounds(&p, 8) {
                    let width = any_width(&mut self.random, &p);
                    let p = Params { planes: any_planes(&mut self.random), width, ..p };
                    let slot = slot_of_e(&mut self.random, &checked(&p), e);
                    self.comparison.read(&p, &slot, Origin::Made);
                }
            }
        }
    }

    /// A q with which so many planes or so end at it, if P allows them, for a block or slot of this m.
    fn lowest_near(&mut self, p: &Params, m: i32) -> i32 {
        let planes = self.random.word_below(39) as i32 - 3;
        (m + 2 * (p.dimension as i32 + 1) - planes).clamp(MIN_LOWEST, MAX_LOWEST)
    }

    /// Any width and P, and such a q.
    fn around(&mut self, p: Params, m: i32) -> Params {
        let width = any_width(&mut self.random, &p);
        let lowest = self.lowest_near(&p, m);
        Params { planes: any_planes(&mut self.random), width, lowest, ..p }
    }

    /// Blocks of lossy floats with every q, in the larger dimensions with some.
    fn every_lowest(&mut self) {
        for p in lossy_floats() {
            let first = MIN_LOWEST + self.random.word_below(step(&p)) as i32;
            for lowest in (first..=MAX_LOWEST).step_by(step(&p) as usize).chain([MIN_LOWEST, MAX_LOWEST]) {
                for _ in 0..2 * self.scale {
                    let width = any_width(&mut self.random, &p);
                    let p = Params { planes: any_planes(&mut self.random), width, lowest, ..p };
                    let words = any_block(&mut self.random, block_len(&p));
                    self.comparison.block(&p, &words);
                }
            }
        }
    }

    /// Floats of every largest exponent field with q around it, and their slots damaged.
    fn lowest_around_every_exponent(&mut self) {
        for p in lossy_floats() {
            for field in 0..255 {
                for _ in 0..self.rounds(&p, 10) {
                    let p = self.around(p, field as i32 - 126);
                    let words = block_of_field(&mut self.random, block_len(&p), field);
                    if let Some(mut slot) = self.comparison.block(&p, &words) {
                        damage(&mut self.random, &mut slot);
                        self.comparison.read(&p, &slot, Origin::Damaged);
                    }
                }
            }
        }
    }

    /// Slots of floats with every e and q around its exponent.
    fn lowest_around_every_e(&mut self) {
        for p in lossy_floats() {
            for e in 0..256 {
                for _ in 0..self.rounds(&p, 10) {
                    let p = self.around(p, e as i32 - 127);
                    let slot = slot_of_e(&mut self.random, &checked(&p), e);
                    self.comparison.read(&p, &slot, Origin::Made);
                }
            }
        }
    }

    /// Slots that end in a scan: in every plane, at every place and with every budget, in the larger dimensions with some.
    fn every_cut_scan(&mut self) {
        for p in all_kinds().filter(|p| p.mode == LOSSY) {
            let (len, head) = (block_len(&p), if p.kind == FLOATS { LOSSY_HEAD } else { 0 });
            let widths = |place| (head + *budgets(place).start() as u32, head + *budgets(place).end() as u32);
            let (_, widest) = widths(Place { plane: 0, coefficient: len - 2 });
            for _ in 0..self.scale {
                for place in places(len).step_by(step(&p) as usize) {
                    let (least, most) = widths(place);
                    if most >= NARROWEST {
                        let width = self.random.between(least.max(NARROWEST), most);
                        self.cut_scan(&p, width, place);
                    }
                }
                for width in self.some_of(&p, widest) {
                    let place = self.random.pick(&places_of(len, (width - head) as usize));
                    self.cut_scan(&p, width, place);
                }
            }
        }
    }

    fn cut_scan(&mut self, p: &Params, width: u32, place: Place) {
        let p = Params { planes: self.random.between(32 - place.plane, 32), width, ..*p };
        let e = self.random.word_below(256);
        let slot = slot_cut_at(&mut self.random, &checked(&p), e, place);
        self.comparison.read(&p, &slot, Origin::Made);
    }
}
