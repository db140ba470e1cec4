//! A small example of every class, worked by both programs.

use crate::bits::{bits_of, hex, hex_words, padded};
use crate::classes::Class;
use crate::compare::Comparison;
use crate::libzfp::checked;
use crate::tally::Origin;
use reference::Params;
use windlassow::MIN_LOWEST;

/// What is handed to both programs.
#[derive(Clone, Copy, Debug)]
pub enum Input {
    /// Words to write.
    Block(&'static [u32]),
    /// Bytes of a slot to read.
    Slot(&'static [u8]),
    /// Words; the slot that the proved library writes for them is read.
    OurSlot(&'static [u32]),
    /// Words; the slot that libzfp writes for them is read.
    TheirSlot(&'static [u32]),
}

/// One example.
#[derive(Clone, Copy, Debug)]
pub struct Witness {
    /// Its class.
    pub class: Class,
    /// The parameters.
    pub params: Params,
    /// The input.
    pub input: Input,
}

const fn params(kind: u32, mode: u32, width: u32) -> Params {
    Params { kind, dimension: 1, mode, planes: 32, width, lowest: MIN_LOWEST }
}

const CUBE: Params = Params { dimension: 3, ..params(0, 1, 16) };

/// 0x80000000 where i and j are odd. The coefficient at i = j = 1, k = 0 has the highest bit; the others are 0.
const ODD: [u32; 64] = {
    let mut block = [0; 64];
    let mut place = 0;
    while place < 64 {
        if place % 2 == 1 && place / 4 % 2 == 1 {
            block[place] = 0x8000_0000;
        }
        place += 1;
    }
    block
};

const fn witness(class: Class, params: Params, input: Input) -> Witness {
    Witness { class, params, input }
}

/// The examples, of dimension 1 where the class does not ask for more.
pub const WITNESSES: [Witness; 11] = [
    // The smallest normal number, lossy: e = 2, so the factor is 2^155.
    witness(Class::ScaleOverflow, params(1, 0, 32), Input::Block(&[0x0080_0000; 4])),
    // The smallest subnormal number, exact: a multiple of 2^-156, so bits 1 0.
    witness(Class::ScaleOverflow, params(1, 1, 64), Input::Block(&[1; 4])),
    // e = 7 and the first coefficient 2^28: four times 2^-122.
    witness(Class::ScaleUnderflow, params(1, 0, 16), Input::Slot(&[0x0F, 0x30])),
    // Four subnormal numbers stored by the proved library.
    witness(Class::ScaleUnderflow, params(1, 1, 64), Input::OurSlot(&[1; 4])),
    // An infinity.
    witness(Class::NotFinite, params(1, 0, 32), Input::Block(&[0x7F80_0000, 0, 0, 0])),
    // Document 01's P4.
    witness(
        Class::TooLong,
        params(0, 1, 135),
        Input::Block(&[0xAAAA_AAAB, 0x5555_5556, 0xAAAA_AAAC, 0x5555_5558]),
    ),
    // The six bits of zeros, document 01's P1, and a one in the padding.
    witness(Class::NotACode, params(0, 1, 16), Input::Slot(&[0x00, 0x80])),
    // e = 0, which is no block's.
    witness(Class::NotACode, params(1, 1, 32), Input::Slot(&[0x01, 0x20, 0x8D, 0x01])),
    // Four subnormal numbers stored by libzfp: bits 1 1 where document 01 has 1 0.
    witness(Class::NotACode, params(1, 1, 64), Input::TheirSlot(&[1; 4])),
    // One coefficient, whose number is 4 in document 02 and 6 in libzfp.
    witness(Class::TieOrder, CUBE, Input::Block(&ODD)),
    witness(Class::TieOrder, CUBE, Input::OurSlot(&ODD)),
];

/// Eight words a line, the first line after a label. Equal lines are counted.
fn with_words(label: &str, words: &[u32]) -> Vec<String> {
    let lines: Vec<&[u32]> = words.chunks(8).collect();
    let mut out = Vec::new();
    for equal in lines.chunk_by(|line, next| line == next) {
        let label = if out.is_empty() { label.to_string() } else { " ".repeat(label.len()) };
        let times = if equal.len() == 1 { String::new() } else { format!(", {} times", equal.len()) };
        out.push(format!("{label}{}{times}", hex_words(equal[0])));
    }
    out
}

impl Witness {
    /// "A: floats, exact, dimension 1, P = 32, W = 64"
    fn title(&self) -> String {
        let kind = ["integers", "floats"][self.params.kind as usize];
        let mode = ["lossy", "exact"][self.params.mode as usize];
        let Params { dimension, planes, width, .. } = self.params;
        format!("{}: {kind}, {mode}, dimension {dimension}, P = {planes}, W = {width}", self.class.letter())
    }

    /// Hands the input to both, and gives the lines that say what came of it, and the class that it was in.
    pub fn show(&self, comparison: &mut Comparison) -> (Vec<String>, Option<Class>) {
        let mut lines = vec![self.title()];
        let width = checked(&self.params).width;
        let class = match self.input {
            Input::Block(words) => self.show_block(comparison, words, &mut lines),
            Input::Slot(bytes) => self.show_slot(comparison, &bits_of(bytes, width), "", &mut lines),
            Input::OurSlot(words) => {
                lines.extend(with_words("   words   ", words));
                let slot = comparison.write(&self.params, words).ours.expect("the block can be stored");
                self.show_slot(comparison, &slot, ", stored by ours", &mut lines)
            }
            Input::TheirSlot(words) => {
                lines.extend(with_words("   words   ", words));
                let slot = padded(&comparison.write(&self.params, words).theirs, width);
                self.show_slot(comparison, &slot, ", stored by libzfp", &mut lines)
            }
        };
        (lines, class)
    }

    fn show_block(
        &self,
        comparison: &mut Comparison,
        words: &[u32],
        lines: &mut Vec<String>,
    ) -> Option<Class> {
        let written = comparison.write(&self.params, words);
        let reply = written.reply;
        lines.extend(with_words("   words   ", words));
        lines.push(match &written.ours {
            Some(slot) => format!("   ours    answer 0, {} bits, slot {}", reply.count, hex(slot)),
            None => format!("   ours    answer {}, count {}", reply.answer, reply.count),
        });
        // What libzfp makes of an infinity is of no interest.
        lines.push(match self.class {
            Class::NotFinite => "   libzfp  writes a code that its documentation leaves open".to_string(),
            _ => format!("   libzfp  {} bits, code {}", written.theirs.len(), hex(&written.theirs)),
        });
        written.class
    }

    fn show_slot(
        &self,
        comparison: &mut Comparison,
        slot: &[bool],
        source: &str,
        lines: &mut Vec<String>,
    ) -> Option<Class> {
        let read = comparison.read(&self.params, slot, Origin::Made);
        lines.push(format!("   slot    {}{source}", hex(slot)));
        match &read.ours {
            Some(words) => lines.extend(with_words("   ours    answer 0, reads ", words)),
            None => lines.push(format!("   ours    answer {}", read.reply.answer)),
        }
        lines.extend(with_words("   libzfp  reads ", &read.theirs));
        read.class
    }
}
