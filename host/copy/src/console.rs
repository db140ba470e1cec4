//! What is said on standard error. A message that cannot be written does not stop a copy.

use crate::text::grouped;
use std::io::Write;

/// Messages, and on a terminal a line below them that shows how far a pass is.
pub struct Console<'a> {
    out: &'a mut dyn Write,
    is_terminal: bool,
    /// The letters of the line that is to be written over.
    shown: usize,
    /// The pass, and the hundredth or tenth of it that was shown last.
    last: (&'static str, u64),
}

impl Console<'_> {
    pub fn new(out: &mut dyn Write, is_terminal: bool) -> Console<'_> {
        Console { out, is_terminal, shown: 0, last: ("", 0) }
    }

    /// Says a line.
    pub fn say(&mut self, message: &str) {
        let clear = self.clear();
        self.write(&format!("{clear}windlassow copy: {message}\n"));
    }

    /// How far a pass is: on a terminal for every hundredth of it, otherwise for every tenth, but not for its end.
    pub fn progress(&mut self, pass: &'static str, done: u64, slots: u64) {
        let steps = if self.is_terminal { 100 } else { 10 };
        let step = (u128::from(done) * steps / u128::from(slots.max(1))) as u64;
        let before = if self.last.0 == pass { self.last.1 } else { 0 };
        if step == before || done == slots && !self.is_terminal {
            return;
        }
        self.last = (pass, step);
        let message = format!("{pass} {} of {} slots", grouped(done), grouped(slots));
        if self.is_terminal {
            let clear = self.clear();
            self.write(&format!("{clear}{message}"));
            self.shown = message.len();
        } else {
            self.say(&message);
        }
    }

    /// What writes over the line shown.
    fn clear(&mut self) -> String {
        let shown = std::mem::take(&mut self.shown);
        if shown == 0 { String::new() } else { format!("\r{}\r", " ".repeat(shown)) }
    }

    fn write(&mut self, text: &str) {
        let _ = self.out.write_all(text.as_bytes()).and_then(|()| self.out.flush());
    }
}

#[cfg(test)]
mod tests {
    use super::*;

    fn said(is_terminal: bool, talk: impl Fn(&mut Console)) -> String {
        let mut out = Vec::new();
        talk(&mut Console::new(&mut out, is_terminal));
        String::from_utf8(out).unwrap()
    }

    /// At most nine lines for a pass, whatever its steps are.
    #[test]
    fn a_file_gets_a_line_for_every_tenth() {
        for slots in [1, 2, 9, 10, 11, 1_000, 99_999] {
            let text =
                said(false, |console| (1..=slots).for_each(|done| console.progress("read", done, slots)));
            assert_eq!(text.lines().count() as u64, (slots - 1).min(9), "{slots}: {text}");
        }
        let text = said(false, |console| {
            console.progress("read", 1_500, 3_000);
            console.progress("read", 3_000, 3_000);
            console.progress("wrote", 1_500, 3_000);
        });
        let lines = ["read 1,500 of 3,000 slots", "wrote 1,500 of 3,000 slots"];
        assert_eq!(text, lines.map(|line| format!("windlassow copy: {line}\n")).concat());
    }

    #[test]
    fn a_terminal_gets_a_line_written_over() {
        let text = said(true, |console| {
            console.progress("read", 10, 20);
            console.progress("read", 10, 20);
            console.progress("read", 20, 20);
            console.say("done");
        });
        let blank = " ".repeat("read 10 of 20 slots".len());
        let expected =
            format!("read 10 of 20 slots\r{blank}\rread 20 of 20 slots\r{blank}\rwindlassow copy: done\n");
        assert_eq!(text, expected);
    }
}
