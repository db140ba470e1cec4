//! Measures the listing program: the time and the memory that it takes for a million blocks.
//!
//! `million [COUNT]`: that many exact integer blocks of dimensions 1 and 2, of readings that change slowly and of random
//! words; of dimension 3 a quarter of it, of dimension 4 a sixteenth. The input comes from a file and the output goes to one. The slots are 33N + 4 bits wide, which every
//! block fits.

use listing::{peak_kib, program};
use random::Random;
use std::fs::{self, File};
use std::io::{self, BufWriter, Read, Write};
use std::path::PathBuf;
use std::process::{Command, exit};
use std::thread;
use std::time::{Duration, Instant};

/// Two files, which are removed at the end.
struct Files {
    input: PathBuf,
    output: PathBuf,
}

impl Files {
    fn new() -> Files {
        let name =
            |end| std::env::temp_dir().join(format!("windlassow-million-{}-{end}", std::process::id()));
        Files { input: name("in"), output: name("out") }
    }
}

impl Drop for Files {
    fn drop(&mut self) {
        let _ = fs::remove_file(&self.input);
        let _ = fs::remove_file(&self.output);
    }
}

/// Readings in hundredths of a degree that change slowly, or any words.
fn write_input(files: &Files, dimension: usize, blocks: usize, is_smooth: bool) -> io::Result<()> {
    let words = 4usize.pow(dimension as u32);
    let mut out = BufWriter::new(File::create(&files.input)?);
    writeln!(out, "00{dimension:02x}0120{:04x}0000", 33 * words + 4)?;
    let mut random = Random::new(dimension as u64);
    let mut reading = 2_000i32;
    for _ in 0..blocks {
        for _ in 0..words {
            reading += random.below(7) as i32 - 3;
            let word = if is_smooth { reading as u32 } else { random.word() };
            write!(out, "{word:08x}")?;
        }
        out.write_all(b"\n")?;
    }
    out.flush()
}

/// The seconds that the program takes, and its peak memory in KiB.
fn run(files: &Files) -> io::Result<(f64, u64)> {
    let (input, output) = (File::open(&files.input)?, File::create(&files.output)?);
    let began = Instant::now();
    let mut child = Command::new(program()).stdin(input).stdout(output).spawn()?;
    let mut peak = 0;
    while child.try_wait()?.is_none() {
        peak = peak_kib(child.id()).unwrap_or_default().max(peak);
        thread::sleep(Duration::from_millis(1));
    }
    Ok((began.elapsed().as_secs_f64(), peak))
}

/// The number of output lines; an error if one is not a done store's.
fn done_lines(files: &Files) -> io::Result<usize> {
    let mut output = Vec::new();
    File::open(&files.output)?.read_to_end(&mut output)?;
    let lines = output.split_inclusive(|&byte| byte == b'\n');
    if lines.clone().any(|line| !line.starts_with(b"00") || !line.ends_with(b"\n")) {
        return Err(io::Error::other("the output has a line that is no done store's"));
    }
    Ok(lines.count())
}

fn measure(dimension: usize, blocks: usize, is_smooth: bool) -> io::Result<()> {
    let files = Files::new();
    write_input(&files, dimension, blocks, is_smooth)?;
    let (seconds, peak) = run(&files)?;
    let lines = done_lines(&files)?;
    if lines != blocks {
        return Err(io::Error::other(format!("{blocks} blocks gave {lines} lines")));
    }
    let megabytes = fs::metadata(&files.input)?.len() as f64 / 1e6;
    println!(
        "dimension {dimension}, {:<6}  {blocks} blocks  {megabytes:6.1} MB in  {seconds:6.2} s  {:6.1} MB/s  {:6.2} us a block  peak {peak} KiB",
        if is_smooth { "smooth" } else { "random" },
        megabytes / seconds,
        seconds * 1e6 / blocks as f64,
    );
    Ok(())
}

fn main() -> io::Result<()> {
    let blocks = match std::env::args().nth(1).map(|count| count.parse()) {
        None => 1_000_000,
        Some(Ok(count)) => count,
        Some(Err(_)) => {
            eprintln!("usage: million [COUNT]");
            exit(2)
        }
    };
    println!("The listing program, exact integers, from a file to a file:");
    for (dimension, part) in [(1, 1), (2, 1), (3, 4), (4, 16)] {
        for is_smooth in [true, false] {
            measure(dimension, blocks / part, is_smooth)?;
        }
    }
    Ok(())
}
