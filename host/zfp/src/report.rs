//! The report: tables of what was counted, and the witnesses.

use crate::classes::{Call, Class};
use crate::libzfp::Libzfp;
use crate::tally::{Row, Tally};
use reference::params::{Kind, Mode};

/// "integers, lossy, 1" and so on, as cells of a table.
fn cells(kind: Kind, mode: Mode, dimension: u32) -> [String; 3] {
    let kind = match kind {
        Kind::Integers => "integers",
        Kind::Floats => "floats",
    };
    let mode = match mode {
        Mode::Lossy => "lossy",
        Mode::Exact => "exact",
    };
    [kind.to_string(), mode.to_string(), dimension.to_string()]
}

/// A line of a Markdown table.
fn line(cells: &[String]) -> String {
    format!("| {} |", cells.join(" | "))
}

fn table(titles: &[&str], tally: &Tally, numbers: impl Fn(&Row) -> Vec<u64>) -> Vec<String> {
    let titles: Vec<String> = ["kind", "mode", "dim."].iter().chain(titles).map(|t| t.to_string()).collect();
    let rule: Vec<String> =
        (0..titles.len()).map(|k| if k < 2 { "---" } else { "---:" }.to_string()).collect();
    let mut lines = vec![line(&titles), format!("|{}|", rule.join("|"))];
    for (kind, mode, dimension, row) in tally.rows() {
        let numbers = numbers(row).into_iter().map(|number| number.to_string());
        lines.push(line(&cells(kind, mode, dimension).into_iter().chain(numbers).collect::<Vec<_>>()));
    }
    lines
}

/// The title of a class's column: its letter, and the answer if it is a refusal's.
fn title(class: Class) -> String {
    let answer = match class {
        Class::NotFinite => " (9)",
        Class::TooLong => " (10)",
        Class::NotACode => " (11)",
        _ => "",
    };
    format!("{}{answer}", class.letter())
}

/// A table that ends with the classes of a call.
fn with_classes(
    titles: &[&str],
    tally: &Tally,
    call: Call,
    numbers: impl Fn(&Row) -> Vec<u64>,
) -> Vec<String> {
    let classes = Class::of(call);
    let letters: Vec<String> = classes.iter().map(|&class| title(class)).collect();
    let titles: Vec<&str> = titles.iter().copied().chain(letters.iter().map(String::as_str)).collect();
    table(&titles, tally, |row| {
        numbers(row).into_iter().chain(classes.iter().map(|&class| row.count(call, class))).collect()
    })
}

/// Blocks written by both.
pub fn writing(tally: &Tally) -> Vec<String> {
    let titles = ["blocks", "codes equal", "counts equal"];
    with_classes(&titles, tally, Call::Write, |row| vec![row.blocks, row.codes_equal, row.counts_equal])
}

/// The lossy blocks or slots whose planes are libzfp's, of those of which libzfp was asked; a line for each kind.
pub fn planes(tally: &Tally, call: Call) -> Vec<String> {
    let line = |kind| {
        let rows = tally.rows().filter(|row| row.0 == kind && row.1 == Mode::Lossy);
        let asked = rows.map(|row| row.3.planes[call as usize]);
        let numbers: Vec<String> = asked.map(|asked| format!("{} of {}", asked.equal, asked.times)).collect();
        format!("{} {}", cells(kind, Mode::Lossy, 1)[0], numbers.join(", "))
    };
    [Kind::Integers, Kind::Floats].map(line).to_vec()
}

/// The blocks and slots of lossy floats with q above -300, by the planes that it left; a line for each dimension.
pub fn lowest(tally: &Tally) -> Vec<String> {
    let titles = ["dim.", "blocks: no planes", "fewer than P", "P", "slots: no planes", "fewer than P", "P"];
    let mut lines = vec![line(&titles.map(String::from)), format!("|{}", "---:|".repeat(titles.len()))];
    let rows = tally.rows().filter(|row| row.0 == Kind::Floats && row.1 == Mode::Lossy);
    for (_, _, dimension, row) in rows {
        let numbers = row.left.iter().flat_map(|left| [left.none, left.fewer, left.all]);
        let numbers = std::iter::once(u64::from(dimension)).chain(numbers);
        lines.push(line(&numbers.map(|number| number.to_string()).collect::<Vec<_>>()));
    }
    lines
}

/// Slots read by both.
pub fn reading(tally: &Tally) -> Vec<String> {
    let titles = ["by both", "by ours", "by libzfp", "damaged", "made", "words equal"];
    with_classes(&titles, tally, Call::Read, |row| [&row.slots[..], &[row.words_equal]].concat())
}

/// The lossy slots that end in a scan; a line for each kind and dimension.
pub fn cut_scans(tally: &Tally) -> Vec<String> {
    let titles = ["kind", "dim.", "slots", "planes", "places", "budgets", "words equal", "C", "G"];
    let mut lines =
        vec![line(&titles.map(String::from)), format!("|---|{}", "---:|".repeat(titles.len() - 1))];
    for (kind, mode, dimension, row) in tally.rows().filter(|row| row.1 == Mode::Lossy) {
        let cut = &row.cut_scans;
        let [kind, _, dimension] = cells(kind, mode, dimension);
        let different = [cut.planes.len(), cut.places.len(), cut.budgets.len()].map(|count| count as u64);
        let classes = [Class::ScaleUnderflow, Class::TieOrder].map(|class| cut.count(class));
        let numbers = [&[cut.slots], &different[..], &[cut.words_equal], &classes].concat();
        let numbers = numbers.into_iter().map(|number| number.to_string());
        lines.push(line(&[kind, dimension].into_iter().chain(numbers).collect::<Vec<_>>()));
    }
    lines
}

/// The orders of coefficients.
pub fn orders(lib: &Libzfp) -> Vec<String> {
    let mut lines = vec![
        line(&["dim.", "places", "of another number"].map(String::from)),
        "|---:|---:|---:|".to_string(),
    ];
    for dimension in 1..=4 {
        let orders = lib.orders(dimension);
        let numbers = [dimension as usize, orders.ours.len(), orders.different()];
        lines.push(line(&numbers.map(|number| number.to_string())));
    }
    lines
}
