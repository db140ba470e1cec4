//! One block or one slot handed to the proved library, to libzfp and to the reference.

use crate::bits::{bits_of, bytes_of, hex, hex_words, padded};
use crate::classes::{Call, Class, Head, scale_overflows, scale_underflows, some_not_finite, ties_differ};
use crate::cuts::slot_cut_in_scan;
use crate::expected::{Code, followed_by_zeros, words_read, written};
use crate::libzfp::{Libzfp, Setting, checked, setting, shape};
use crate::order::{Reordered, reordered};
use crate::planes::{planes_read, planes_within};
use crate::tally::{Origin, Tally};
use reference::code::float_planes;
use reference::floats::{common_exponent, is_zero};
use reference::params::{Checked, Kind, Mode};
use reference::{Params, Reply};
use windlassow::Done;

/// What both have written for a block.
pub struct Written {
    /// The proved library's reply.
    pub reply: Reply,
    /// Its slot, if the store is done.
    pub ours: Option<Vec<bool>>,
    /// libzfp's code, without padding.
    pub theirs: Vec<bool>,
    /// The class of the difference, if there is one.
    pub class: Option<Class>,
}

/// What both have read from a slot.
pub struct Read {
    /// The proved library's reply.
    pub reply: Reply,
    /// Its words, if the reading is done.
    pub ours: Option<Vec<u32>>,
    /// libzfp's words.
    pub theirs: Vec<u32>,
    /// The bits that libzfp took.
    pub taken: usize,
    /// The class of the difference, if there is one.
    pub class: Option<Class>,
}

/// A running comparison.
pub struct Comparison {
    /// The other program.
    pub lib: Libzfp,
    /// What was seen.
    pub tally: Tally,
    /// What no class explains, and what a class foretells and did not happen.
    pub failures: Vec<String>,
}

/// The outcome of a call of the proved library in the shape of the reference's.
fn reply(outcome: Result<Done, windlassow::Refusal>) -> Reply {
    match outcome {
        Ok(Done { count, planes }) => Reply::done(count, planes),
        Err(refusal) => Reply::needs(refusal.number(), refusal.needed().unwrap_or(0)),
    }
}

/// Whether the bit count gives what the store gave. Of one that is refused as too long it gives the bits.
fn is_counted(p: &Params, words: &[u32], stored: Reply) -> bool {
    let counted = reply(windlassow::bit_count(ours(p), words));
    if stored.answer == 10 { counted.count == stored.count } else { counted == stored }
}

/// The planes that P and q leave of a block of lossy floats that is stored and not all zero.
fn planes_left(c: &Checked, words: &[u32], reply: Reply) -> Option<u32> {
    let is_float = c.kind == Kind::Floats && c.mode == Mode::Lossy && reply.answer == 0;
    let some_magnitude = words.iter().any(|&word| !is_zero(word));
    (is_float && some_magnitude).then(|| float_planes(c, common_exponent(words)))
}

fn ours(p: &Params) -> windlassow::Params {
    windlassow::Params::from_numbers(p.kind, p.dimension, p.mode, p.planes, p.width, p.lowest)
}

impl Comparison {
    /// Nothing compared yet.
    pub fn new(lib: Libzfp) -> Comparison {
        Comparison { lib, tally: Tally::default(), failures: Vec::new() }
    }

    /// Notes a failure if something does not hold.
    fn must(&mut self, holds: bool, what: &str, p: &Params, input: impl Fn() -> String) {
        if !holds {
            self.failures.push(format!("{what}: {p:?}: {}", input()));
        }
    }

    /// Writes a block with both, and has both read every slot that comes of it. Gives the slot of the proved library.
    pub fn block(&mut self, p: &Params, words: &[u32]) -> Option<Vec<bool>> {
        let written = self.write(p, words);
        let width = checked(p).width;
        let theirs = padded(&written.theirs, width);
        let alike = written.ours.as_ref() == Some(&theirs);
        if let Some(slot) = &written.ours {
            let origin = if alike { Origin::Both } else { Origin::Ours };
            let read = self.read(p, slot, origin);
            let count = written.reply.count as usize;
            self.must(read.taken == count, "libzfp takes other bits than were written", p, || {
                hex_words(words)
            });
            if p.mode == 1 {
                let back = read.ours.as_deref() == Some(words);
                self.must(back, "an exact block does not come back", p, || hex_words(words));
            }
        }
        // What libzfp writes for an infinity or a NaN is left open, so there is nothing to learn from it.
        if !alike && written.class != Some(Class::NotFinite) && theirs.len() == width {
            let read = self.read(p, &theirs, Origin::Theirs);
            let back = p.mode == 0 || read.theirs == words;
            self.must(back, "libzfp does not give its own block back", p, || hex_words(words));
        }
        written.ours
    }

    /// Writes a block with both.
    pub fn write(&mut self, p: &Params, words: &[u32]) -> Written {
        let c = checked(p);
        // Ones everywhere, so that the padding is seen.
        let mut archive = vec![0xFF; c.width.div_ceil(8)];
        let mut expected = archive.clone();
        let reply = reply(windlassow::store(ours(p), &mut archive, 0, words));
        let agreed = reply == reference::store(p, &mut expected, 0, words) && archive == expected;
        self.must(agreed, "the reference stores otherwise", p, || hex_words(words));
        self.must(is_counted(p, words, reply), "store and bit count differ", p, || hex_words(words));
        self.check_planes(p, &c, words, reply);
        let theirs = self.lib.encode(shape(&c), setting(&c), words);
        let foretold = written(&c, words, Some(self.lib.orders(c.dimension))).holds(&theirs);
        self.must(foretold, "libzfp's code is not the one expected", p, || hex_words(words));
        self.check_limits(p, &c, words, &theirs);
        let slot = (reply.answer == 0).then(|| bits_of(&archive, c.width));
        let class = self.class_of_writing(p, words, reply, slot.as_deref(), &theirs);
        let row = self.tally.row(p);
        if let Some(planes) = planes_left(&c, words, reply) {
            row.note_left(Call::Write, &c, planes);
        }
        row.blocks += 1;
        row.codes_equal += u64::from(class.is_none());
        row.counts_equal += u64::from(reply.answer != 9 && reply.count as usize == theirs.len());
        row.note(Call::Write, class);
        Written { reply, ours: slot, theirs, class }
    }

    /// The planes of a lossy store with libzfp as the judge. It cannot be asked where its scale fails.
    fn check_planes(&mut self, p: &Params, c: &Checked, words: &[u32], reply: Reply) {
        if c.mode == Mode::Exact || reply.answer != 0 || c.kind == Kind::Floats && scale_overflows(words) {
            return;
        }
        let same = planes_within(&self.lib, c, words) == reply.planes;
        self.must(same, "libzfp's codes have other planes whole", p, || hex_words(words));
        self.tally.row(p).note_planes(Call::Write, same);
    }

    /// The same of a lossy read. Here libzfp can always be asked.
    fn check_planes_read(&mut self, p: &Params, c: &Checked, slot: &[bool], reply: Reply) {
        let same = planes_read(&self.lib, c, slot) == reply.planes;
        self.must(same, "libzfp reads other planes whole", p, || hex(slot));
        self.tally.row(p).note_planes(Call::Read, same);
    }

    /// libzfp told to fill the slot, or to keep to it, writes the same code with zeros after it, or cut.
    fn check_limits(&mut self, p: &Params, c: &Checked, words: &[u32], code: &[bool]) {
        let width = c.width as u32;
        let limited = match c.mode {
            Mode::Lossy => Setting::Lossy { least: width, most: width, planes: c.planes, lowest: c.lowest },
            Mode::Exact => Setting::ReversibleWithin(width),
        };
        let bits = self.lib.encode(shape(c), limited, words);
        let same = match c.mode {
            Mode::Lossy => bits == padded(code, c.width),
            Mode::Exact => bits == code[..code.len().min(c.width)],
        };
        self.must(same, "libzfp within the slot's width writes otherwise", p, || hex_words(words));
    }

    /// A difference that would be there in our order too is the overflow's; one that goes with the order, the order's.
    fn class_of_writing(
        &mut self,
        p: &Params,
        words: &[u32],
        reply: Reply,
        slot: Option<&[bool]>,
        theirs: &[bool],
    ) -> Option<Class> {
        let c = checked(p);
        let count = reply.count as usize;
        let same = slot.is_some_and(|slot| slot == padded(theirs, c.width)) && count == theirs.len();
        let overflows = c.kind == Kind::Floats && scale_overflows(words);
        let remains =
            |slot: &[bool]| !matches!(written(&c, words, None), Code::Known(code) if code == slot[..count]);
        let (class, holds) = match reply.answer {
            0 if same => (None, true),
            0 if slot.is_some_and(remains) => (Some(Class::ScaleOverflow), overflows),
            0 => (Some(Class::TieOrder), ties_differ(c.dimension)),
            9 => (Some(Class::NotFinite), c.kind == Kind::Floats && some_not_finite(words)),
            // What is longer than W is longer for both, and by the same bits, unless the scale overflows or the order
            // makes another length.
            10 => {
                let alike = count == theirs.len() || overflows || ties_differ(c.dimension);
                (Some(Class::TooLong), alike && count > c.width)
            }
            _ => (None, false),
        };
        self.must(holds, "a difference of no class in writing", p, || hex_words(words));
        class
    }

    /// Reads a slot with both.
    pub fn read(&mut self, p: &Params, slot: &[bool], origin: Origin) -> Read {
        let c = checked(p);
        let archive = bytes_of(slot);
        let mut words = vec![0xDEAD_BEEF; c.block_len()];
        let mut expected = words.clone();
        let reply = reply(windlassow::read(ours(p), &archive, 0, &mut words));
        let agreed = reply == reference::read(p, &archive, 0, &mut expected) && words == expected;
        self.must(agreed, "the reference reads otherwise", p, || hex(slot));
        let (theirs, taken) = self.lib.decode(shape(&c), setting(&c), slot);
        let foretold = theirs == words_read(&c, slot, Some(self.lib.orders(c.dimension)));
        self.must(foretold, "libzfp's words are not the ones expected", p, || hex(slot));
        let words = (reply.answer == 0).then_some(words);
        let class = self.class_of_reading(p, slot, words.as_deref(), &theirs);
        match c.mode {
            Mode::Lossy => self.check_planes_read(p, &c, slot, reply),
            Mode::Exact => self.check_refusal(p, &c, slot, reply),
        }
        let row = self.tally.row(p);
        if let Some(Head { e: Some(_), planes, .. }) = Head::of(&c, slot).filter(|_| c.mode == Mode::Lossy) {
            row.note_left(Call::Read, &c, planes);
        }
        if let Some((place, budget)) = slot_cut_in_scan(&c, slot) {
            row.note_cut_scan(place, budget, class);
        }
        row.slots[origin as usize] += 1;
        row.words_equal += u64::from(words.as_ref() == Some(&theirs));
        row.note(Call::Read, class);
        Read { reply, ours: words, theirs, taken, class }
    }

    /// A difference that would be there in our order too is the underflow's; one that goes with the order, the order's.
    fn class_of_reading(
        &mut self,
        p: &Params,
        slot: &[bool],
        words: Option<&[u32]>,
        theirs: &[u32],
    ) -> Option<Class> {
        let c = checked(p);
        let Some(words) = words else {
            return Some(Class::NotACode);
        };
        if words == theirs {
            return None;
        }
        let (class, holds) = if words_read(&c, slot, None) != words {
            let e = Head::of(&c, slot).and_then(|head| head.e);
            (Class::ScaleUnderflow, e.is_some_and(scale_underflows))
        } else {
            (Class::TieOrder, ties_differ(c.dimension))
        };
        self.must(holds, "a difference of no class in reading", p, || hex(slot));
        Some(class)
    }

    /// Row 11 with libzfp as the judge: a slot is some block's exactly if libzfp writes it again for what it reads
    /// from it, both in libzfp's order. That cannot be asked where one of the scales fails.
    fn check_refusal(&mut self, p: &Params, c: &Checked, slot: &[bool], reply: Reply) {
        let orders = self.lib.orders(c.dimension);
        let Reordered { bits, taken } = reordered(c, &followed_by_zeros(c, slot), orders);
        let (words, _) = self.lib.decode(shape(c), Setting::Reversible, &bits);
        let e = Head::of(c, slot).and_then(|head| head.e);
        if c.kind == Kind::Floats && (scale_overflows(&words) || e.is_some_and(scale_underflows)) {
            return;
        }
        let again = self.lib.encode(shape(c), Setting::Reversible, &words);
        let is_code = taken <= c.width && padded(&again, bits.len()) == bits;
        self.must(is_code == (reply.answer == 0), "libzfp judges row 11 otherwise", p, || hex(slot));
    }
}
