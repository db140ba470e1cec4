//! Where a slot ends: how many planes stand in it whole, and what is cut, told from its bits alone.

use crate::common::*;
use crate::compare::*;
use reference::{Params, bits};
use std::collections::BTreeMap;
use windlassow::MAX_WIDTH;

/// Where the bits of a lossy slot end.
#[derive(Clone, Copy, Debug, PartialEq, Eq, PartialOrd, Ord)]
pub enum End {
    /// After all P planes, with bits to spare.
    Spare,
    /// With all P planes.
    Full,
    /// Between two planes, after a test that was answered 0.
    Tested,
    /// Between two planes, after a one at place N - 1, which is known.
    Known,
    /// Between two planes, after the bits of all N places.
    Places,
    /// Among the n first bits of a plane.
    Bits,
    /// After the n first bits, before a test.
    FirstTest,
    /// After a one that was found, before another test.
    LaterTest,
    /// After a test that was answered 1, before its scan.
    Scan,
    /// After some 0s of a scan, before place N - 1.
    ScanZeros,
}

/// All of them.
pub const ENDS: [End; 10] = [
    End::Spare,
    End::Full,
    End::Tested,
    End::Known,
    End::Places,
    End::Bits,
    End::FirstTest,
    End::LaterTest,
    End::Scan,
    End::ScanZeros,
];

/// Goes through bits; where there are no more it gives the end that was named. Keeps the names.
struct Walk<'a> {
    bits: &'a [bool],
    named: Vec<End>,
}

impl Walk<'_> {
    fn bit(&mut self, end: End) -> Result<bool, End> {
        let bit = *self.bits.get(self.named.len()).ok_or(end)?;
        self.named.push(end);
        Ok(bit)
    }

    /// Goes through a plane. Gives the new n and how the plane ends.
    fn plane(&mut self, len: usize, mut n: usize, before: End) -> Result<(usize, End), End> {
        for place in 0..n {
            self.bit(if place == 0 { before } else { End::Bits })?;
        }
        if n == len {
            return Ok((n, End::Places));
        }
        let mut test = if n == 0 { before } else { End::FirstTest };
        while self.bit(test)? {
            let mut scan = End::Scan;
            while n < len - 1 && !self.bit(scan)? {
                n += 1;
                scan = End::ScanZeros;
            }
            n += 1;
            if n == len {
                return Ok((n, End::Known));
            }
            test = End::LaterTest;
        }
        Ok((n, End::Tested))
    }
}

/// The planes of which all bits are there, and where the bits end. There is a bit at least.
pub fn walked(bits: &[bool], len: usize, planes: u32) -> (u32, End) {
    let mut walk = Walk { bits, named: Vec::new() };
    let (mut n, mut end) = (0, End::Full);
    for whole in 0..planes {
        match walk.plane(len, n, end) {
            Ok(past) => (n, end) = past,
            Err(end) => return (whole, end),
        }
    }
    (planes, if walk.named.len() == bits.len() { End::Full } else { End::Spare })
}

/// The places of an uncut code, after its head.
pub struct Places {
    /// How a slot ends that has so many bits of it.
    named: Vec<End>,
    /// Where each plane ends.
    pub ends: Vec<usize>,
}

impl Places {
    /// Those of a code that is whole.
    pub fn of(code: &[bool], len: usize, planes: u32) -> Places {
        let mut walk = Walk { bits: code, named: Vec::new() };
        let (mut n, mut end, mut ends) = (0, End::Full, Vec::new());
        for _ in 0..planes {
            (n, end) = walk.plane(len, n, end).expect("the code is whole");
            ends.push(walk.named.len());
        }
        Places { named: walk.named, ends }
    }

    /// The budgets from `least` on that end like this.
    pub fn that_end(&self, end: End, least: usize) -> Vec<usize> {
        (least..self.named.len()).filter(|&budget| self.named[budget] == end).collect()
    }
}

/// The bits of a slot.
pub fn slot_bits(p: &Params, archive: &[u8], slot: usize) -> Vec<bool> {
    (slot * width_of(p)..(slot + 1) * width_of(p)).map(|t| bits::get(archive, t)).collect()
}

/// An archive that begins with these bits.
pub fn archive_of(slot: &[bool]) -> Vec<u8> {
    let mut archive = vec![0; slot.len().div_ceil(8)];
    slot.iter().enumerate().for_each(|(t, &bit)| archive[t / 8] |= u8::from(bit) << (t % 8));
    archive
}

/// On the library alone: a lossy slot that ends in a scan reads as if the one that is sought followed, which sets its bit at the
/// place that the scan has come to, and any other slot as if a 0 did.
pub fn reads_as_if_followed(p: &Params, slot: &[bool]) {
    if p.width == MAX_WIDTH || p.kind == FLOATS && !slot[0] {
        return;
    }
    let words = |p: Params, slot: &[bool]| {
        let mut words = vec![NO_WORD; block_len(&p)];
        windlassow::read(ours(&p), &archive_of(slot), 0, &mut words).expect("a lossy slot is read");
        words
    };
    let (_, end) = walked(&slot[head_len(p.kind)..], block_len(p), planes_coded(p, slot));
    let mut longer = slot.to_vec();
    longer.push(matches!(end, End::Scan | End::ScanZeros));
    let wider = Params { width: p.width + 1, ..*p };
    assert_eq!(
        words(*p, slot),
        words(wider, &longer),
        "{p:?} {end:?} {}",
        shown_slot(p, &archive_of(slot), 0)
    );
}

/// The planes that a done store or read of a slot must report. In exact mode p of the head; of floats that are a single 0
/// none.
pub fn planes_of(p: &Params, slot: &[bool]) -> u32 {
    let number = |at: usize| (0..5).map(|k| u32::from(slot[at + k]) << k).sum::<u32>() + 1;
    match (p.kind, p.mode) {
        (FLOATS, _) if !slot[0] => 0,
        (INTEGERS, EXACT) => number(0),
        (_, EXACT) => number(if slot[1] { 2 } else { 10 }),
        (kind, _) => walked(&slot[head_len(kind)..], block_len(p), planes_coded(p, slot)).0,
    }
}

/// The planes that a lossy slot is read to: P, and of floats no more than from its e down to q.
pub fn planes_coded(p: &Params, slot: &[bool]) -> u32 {
    if p.kind == INTEGERS {
        return p.planes;
    }
    let e: i32 = (0..8).map(|k| i32::from(slot[1 + k]) << k).sum();
    let to_lowest = e - 125 + 2 * p.dimension as i32 - p.lowest;
    to_lowest.clamp(0, p.planes as i32) as u32
}

/// The bits before the planes of a lossy slot.
pub fn head_len(kind: u32) -> usize {
    if kind == FLOATS { 9 } else { 0 }
}

/// What was seen of lossy slots.
#[derive(Default)]
pub struct Seen {
    ends: BTreeMap<End, usize>,
    planes: BTreeMap<u32, usize>,
    zeros_lost: usize,
}

impl Seen {
    /// One more slot, with the planes that were reported of it. One that is a single 0 has no end.
    pub fn count(&mut self, p: &Params, slot: &[bool], planes: u32) {
        *self.planes.entry(planes).or_default() += 1;
        if p.kind == INTEGERS || slot[0] {
            let (_, end) = walked(&slot[head_len(p.kind)..], block_len(p), planes_coded(p, slot));
            *self.ends.entry(end).or_default() += 1;
        }
    }

    /// One more slot in which a plane is cut, of which only zeros are lost.
    pub fn count_lost_zeros(&mut self) {
        self.zeros_lost += 1;
    }

    /// Fails if fewer slots than that had a plane cut of which only zeros are lost.
    pub fn must_lose_zeros(&self, what: &str, often: usize) {
        assert!(self.zeros_lost >= often, "{what}: {} slots lost only zeros of a plane", self.zeros_lost);
    }

    /// Fails if an end or a count of planes, from `least` to 32, was seen less often than that.
    pub fn must_include(&self, what: &str, least: u32, often: usize) {
        for end in ENDS {
            let times = self.ends.get(&end).copied().unwrap_or_default();
            assert!(times >= often, "{what}: {times} slots ended like {end:?}");
        }
        for planes in least..=32 {
            let times = self.planes.get(&planes).copied().unwrap_or_default();
            assert!(times >= often, "{what}: {times} slots had {planes} planes");
        }
    }
}
