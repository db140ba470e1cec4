//! Shared by the build scripts: has the Rattle kit make a file, unless it is newer than the proved crates.

use std::fs::{self, File};
use std::path::{Path, PathBuf};
use std::process::{Command, ExitStatus, Stdio, exit};
use std::time::SystemTime;
use std::{env, io};

/// Whether `WINDLASSOW_NO_LINK` asks that nothing be made, which is enough for `cargo check` and `cargo doc`.
pub fn is_left_out() -> bool {
    println!("cargo:rerun-if-env-changed=WINDLASSOW_NO_LINK");
    env::var_os("WINDLASSOW_NO_LINK").is_some_and(|value| value != "0")
}

/// Has `file` made by `tools/built NAME` if it is missing or older than a file of the crates.
pub fn made(root: &Path, file: &Path, name: &str) {
    println!("cargo:rerun-if-changed={}", root.join("crates.txt").display());
    for folder in sources(root).unwrap_or_else(|error| fail(&format!("cannot look through crates/: {error}"))) {
        println!("cargo:rerun-if-changed={}", folder.display());
    }
    println!("cargo:rerun-if-changed={}", file.display());
    println!("cargo:rerun-if-changed={}", root.join("host/kit.rs").display());
    if !up_to_date(file, root) {
        make(name, root, file);
    }
}

/// The folder two above the package: `host/PACKAGE` stands in the repository.
pub fn repository() -> PathBuf {
    let package = env::var_os("CARGO_MANIFEST_DIR").expect("cargo names the package's folder");
    let above = Path::new(&package).ancestors().nth(2).expect("the package is at host/PACKAGE");
    above.to_path_buf()
}

fn up_to_date(file: &Path, root: &Path) -> bool {
    let Ok(made) = fs::metadata(file).and_then(|data| data.modified()) else {
        return false;
    };
    match newest_source(root) {
        Ok(changed) => changed <= made,
        Err(error) => fail(&format!("cannot look through crates/: {error}")),
    }
}

/// What the crates are made of: `src`, `specs` and `proofs` of each, and not `out`, where `rt` leaves its results.
fn sources(root: &Path) -> io::Result<Vec<PathBuf>> {
    let mut folders = Vec::new();
    for entry in fs::read_dir(root.join("crates"))? {
        let crate_folder = entry?.path();
        folders.extend(["src", "specs", "proofs"].map(|part| crate_folder.join(part)).into_iter().filter(|part| part.is_dir()));
    }
    Ok(folders)
}

fn newest_source(root: &Path) -> io::Result<SystemTime> {
    let mut time = root.join("crates.txt").metadata()?.modified()?;
    for folder in sources(root)? {
        time = time.max(newest(&folder)?);
    }
    Ok(time)
}

/// The time of the newest file in a folder and in those below it.
fn newest(folder: &Path) -> io::Result<SystemTime> {
    let mut time = SystemTime::UNIX_EPOCH;
    for entry in fs::read_dir(folder)? {
        let entry = entry?;
        let changed = if entry.file_type()?.is_dir() {
            newest(&entry.path())?
        } else {
            entry.metadata()?.modified()?
        };
        time = time.max(changed);
    }
    Ok(time)
}

/// Runs `tools/built` while no other build script does, since cargo runs several at a time: a second run of it finds all proved.
fn make(name: &str, root: &Path, file: &Path) {
    let command = format!("tools/built {name}");
    let target = root.join("target");
    fs::create_dir_all(&target).unwrap_or_else(|error| fail(&format!("cannot write to {}: {error}", target.display())));
    if Command::new("rt").arg("help").output().is_err() {
        fail(&format!(
            "{} is missing or older than crates/, and the Rattle kit's command 'rt', which makes it, is not on \
             the PATH",
            file.display()
        ));
    }
    let log = target.join(format!("built-{name}.log"));
    let status = run(name, root, &target.join("host.lock"), &log);
    let status = status.unwrap_or_else(|error| fail(&format!("cannot run 'flock' for '{command}': {error}")));
    if !status.success() {
        let said = fs::read(&log).unwrap_or_default();
        fail(&format!("'{command}' failed ({status}):\n{}", String::from_utf8_lossy(&said)));
    }
    if !file.exists() {
        fail(&format!("'{command}' ended well but wrote no {}", file.display()));
    }
    if !up_to_date(file, root) {
        touch(file).unwrap_or_else(|error| fail(&format!("cannot touch {}: {error}", file.display())));
    }
}

/// What `rt` says goes to `log` as it says it, since cargo shows nothing of a build script before its end.
fn run(name: &str, root: &Path, lock: &Path, log: &Path) -> io::Result<ExitStatus> {
    let said = File::create(log)?;
    let mut built = Command::new("flock");
    built.arg(lock).arg("tools/built").arg(name).current_dir(root).stdin(Stdio::null());
    built.stdout(said.try_clone()?).stderr(said).status()
}

fn touch(file: &Path) -> io::Result<()> {
    File::options().append(true).open(file)?.set_modified(SystemTime::now())
}

/// Ends the build with a message.
fn fail(message: &str) -> ! {
    for line in message.lines() {
        println!("cargo::error={line}");
    }
    exit(1)
}
