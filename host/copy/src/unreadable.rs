//! The slots that cannot be read.

use crate::console::Console;

/// The ranges that a line names at most. So a file without one good slot takes no memory.
const LINE: usize = 50;

/// Slots as ranges, those of a line at a time, and how many there were in all.
#[derive(Default)]
pub struct Unreadable {
    ranges: Vec<(u64, u64)>,
    pub total: u64,
}

impl Unreadable {
    /// Adds a slot, whose number is above those before it. A line that is full is said.
    pub fn add(&mut self, slot: u64, console: &mut Console) {
        self.total += 1;
        match self.ranges.last_mut() {
            Some((_, last)) if *last + 1 == slot => *last = slot,
            _ => {
                if self.ranges.len() == LINE {
                    self.list(console);
                }
                self.ranges.push((slot, slot));
            }
        }
    }

    /// Says the slots that were not said yet.
    pub fn list(&mut self, console: &mut Console) {
        let ranges = std::mem::take(&mut self.ranges);
        match ranges[..] {
            [] => {}
            [(first, last)] if first == last => console.say(&format!("unreadable: slot {first}")),
            _ => console.say(&format!("unreadable: slots {}", listed(&ranges))),
        }
    }
}

/// "3, 1007 to 1009", with no commas within a number.
fn listed(ranges: &[(u64, u64)]) -> String {
    let range = |&(first, last): &(u64, u64)| {
        if first == last { first.to_string() } else { format!("{first} to {last}") }
    };
    ranges.iter().map(range).collect::<Vec<_>>().join(", ")
}

#[cfg(test)]
mod tests {
    use super::*;

    fn said(slots: impl IntoIterator<Item = u64>) -> (u64, String) {
        let mut out = Vec::new();
        let mut console = Console::new(&mut out, false);
        let mut unreadable = Unreadable::default();
        slots.into_iter().for_each(|slot| unreadable.add(slot, &mut console));
        unreadable.list(&mut console);
        (unreadable.total, String::from_utf8(out).unwrap())
    }

    #[test]
    fn slots_are_listed_as_ranges() {
        assert_eq!(said([]), (0, String::new()));
        assert_eq!(said([1_003]), (1, "windlassow copy: unreadable: slot 1003\n".into()));
        assert_eq!(said([0, 1]), (2, "windlassow copy: unreadable: slots 0 to 1\n".into()));
        assert_eq!(
            said([3, 1_007, 1_008]),
            (3, "windlassow copy: unreadable: slots 3, 1007 to 1008\n".into())
        );
    }

    /// All are named once, in lines that are not too long.
    #[test]
    fn many_slots_take_several_lines() {
        let (total, text) = said((0..220).map(|slot| 2 * slot));
        assert_eq!((total, text.lines().count()), (220, 5));
        let numbers = text.replace("windlassow copy: unreadable: slots ", "").replace(", ", "\n");
        assert!(numbers.lines().eq((0..220).map(|slot| (2 * slot).to_string())), "{text}");
    }
}
