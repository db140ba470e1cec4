//! How numbers and names are shown.

use std::path::Path;

/// A number with a comma before every three digits from the right.
pub fn grouped(number: u64) -> String {
    let digits = number.to_string();
    let mut text = String::new();
    for (place, digit) in digits.chars().enumerate() {
        if place > 0 && (digits.len() - place) % 3 == 0 {
            text.push(',');
        }
        text.push(digit);
    }
    text
}

/// "1 slot", "2,000 slots".
pub fn counted(number: u64, thing: &str) -> String {
    format!("{} {thing}{}", grouped(number), if number == 1 { "" } else { "s" })
}

/// A file's name in a message of one line.
pub fn shown(path: &Path) -> String {
    one_line(&path.to_string_lossy())
}

/// The text with its line ends and other control characters escaped.
pub fn one_line(text: &str) -> String {
    let escaped = |letter: char| {
        if letter.is_control() { letter.escape_default().collect() } else { letter.to_string() }
    };
    text.chars().map(escaped).collect()
}

#[cfg(test)]
mod tests {
    use super::*;

    #[test]
    fn numbers_in_groups() {
        for (number, text) in
            [(0, "0"), (999, "999"), (1_000, "1,000"), (65_536, "65,536"), (1_234_567, "1,234,567")]
        {
            assert_eq!(grouped(number), text);
        }
        assert_eq!(
            [counted(0, "slot"), counted(1, "slot"), counted(2_000, "slot")],
            ["0 slots", "1 slot", "2,000 slots"]
        );
    }

    #[test]
    fn names_stay_on_a_line() {
        assert_eq!(shown(Path::new("a\nb ü")), "a\\nb ü");
    }
}
