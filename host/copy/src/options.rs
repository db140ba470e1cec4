//! What a command line asks for.

use crate::text::one_line;
use std::ffi::OsString;
use std::path::PathBuf;
use windlassow::{Dimension, Kind, MAX_WIDTH, MIN_WIDTH, Mode, Params};

/// Help, or a copy.
pub enum Asked {
    Help,
    Copy(Job),
}

/// How the old file was written, and the two files.
pub struct Job {
    pub params: Params,
    pub old: PathBuf,
    pub new: PathBuf,
}

/// The words as they were given.
#[derive(Default)]
struct Given {
    kind: Option<String>,
    dimension: Option<String>,
    width: Option<String>,
    files: Vec<PathBuf>,
}

/// What the words ask for, or a line that says what is wrong with them.
pub fn parse(words: impl Iterator<Item = OsString>) -> Result<Asked, String> {
    let words: Vec<OsString> = words.collect();
    if words.iter().take_while(|word| *word != "--").any(|word| word == "--help" || word == "-h") {
        return Ok(Asked::Help);
    }
    let mut given = Given::default();
    let mut rest = words.into_iter();
    while let Some(word) = rest.next() {
        if word == "--" {
            given.files.extend(rest.by_ref().map(PathBuf::from));
        } else if word.as_encoded_bytes().starts_with(b"-") && word != "-" {
            given.option(&word.to_string_lossy(), &mut rest)?;
        } else {
            given.files.push(word.into());
        }
    }
    given.job().map(Asked::Copy)
}

impl Given {
    /// Takes an option, whose value is in the same word after '=', or is the next word.
    fn option(&mut self, word: &str, rest: &mut impl Iterator<Item = OsString>) -> Result<(), String> {
        let (name, value) = match word.split_once('=') {
            Some((name, value)) => (name, Some(value.to_string())),
            None => (word, None),
        };
        let place = match name {
            "--kind" => &mut self.kind,
            "--dimension" => &mut self.dimension,
            "--width" => &mut self.width,
            _ => return Err(format!("there is no option '{}'", one_line(name))),
        };
        if place.is_some() {
            return Err(format!("{name} is given twice"));
        }
        let value = value.or_else(|| Some(rest.next()?.to_string_lossy().into_owned()));
        *place = Some(value.ok_or_else(|| format!("{name} has no value"))?);
        Ok(())
    }

    fn job(self) -> Result<Job, String> {
        let kind = chosen("--kind", "integers or floats", self.kind, |value| match value {
            "integers" => Some(Kind::Integers),
            "floats" => Some(Kind::Floats),
            _ => None,
        })?;
        let dimension = chosen("--dimension", "1, 2, 3 or 4", self.dimension, |value| match value {
            "1" => Some(Dimension::One),
            "2" => Some(Dimension::Two),
            "3" => Some(Dimension::Three),
            "4" => Some(Dimension::Four),
            _ => None,
        })?;
        let width = chosen("--width", "a number from 16 to 8462, 8N or 0", self.width, |value| {
            bits(value, dimension)
        })?;
        let [old, new] = two(self.files)?;
        Ok(Job { params: Params::new(kind, dimension, Mode::Exact, 32, width), old, new })
    }
}

/// The value of an option that is needed.
fn chosen<T>(
    name: &str,
    what: &str,
    value: Option<String>,
    known: impl Fn(&str) -> Option<T>,
) -> Result<T, String> {
    let value = value.ok_or_else(|| format!("{name} is missing: {what}"))?;
    known(&value).ok_or_else(|| format!("{name} is {what}, not '{}'", one_line(&value)))
}

/// The width that a value stands for; 8N stands for the bits that a width of 0 once had.
fn bits(value: &str, dimension: Dimension) -> Option<u32> {
    if value == "8N" {
        return Some(8 * dimension.block_len() as u32);
    }
    let width: u32 = value.parse().ok()?;
    // The number is written as numbers are: without a sign and without zeros before it.
    let is_plain = width.to_string() == value;
    (is_plain && (width == 0 || (MIN_WIDTH..=MAX_WIDTH).contains(&width))).then_some(width)
}

fn two(files: Vec<PathBuf>) -> Result<[PathBuf; 2], String> {
    if let Some(extra) = files.get(2) {
        return Err(format!("'{}' is one file too many", crate::text::shown(extra)));
    }
    if files.iter().any(|file| file.as_os_str().is_empty()) {
        return Err("a file's name is empty".into());
    }
    files.try_into().map_err(|files: Vec<_>| match files.len() {
        0 => "the files OLD and NEW are missing".into(),
        _ => "the file NEW is missing".into(),
    })
}
