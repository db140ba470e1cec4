//! Looks for libzfp. Without it the package builds all the same, and its tests fail with a message that says so.

use std::path::Path;
use std::process::{Command, Stdio};
use std::{env, fs};

/// A program that needs the header and the library.
const PROBE: &str = "#include <zfp.h>\nint main(void) { return zfp_stream_open(0) == 0; }\n";

fn main() {
    println!("cargo:rerun-if-changed=build.rs");
    println!("cargo:rerun-if-env-changed=CC");
    println!("cargo:rustc-check-cfg=cfg(libzfp)");
    if is_installed() {
        println!("cargo:rustc-cfg=libzfp");
        println!("cargo:rustc-link-lib=zfp");
        println!("cargo:rerun-if-changed=/usr/include/zfp.h");
    } else {
        // Cargo takes a file that is not there for changed, and so looks again each time. It would not see by its time that the header
        // has come: a package's files are older than any build.
        println!("cargo:rerun-if-changed=no-libzfp-yet");
        println!("cargo:warning=libzfp is not installed: apt-get install libzfp-dev");
    }
}

/// Whether the C compiler makes a program of the probe.
fn is_installed() -> bool {
    let folder = env::var_os("OUT_DIR").expect("cargo names the folder for what is built");
    let (source, program) = (Path::new(&folder).join("probe.c"), Path::new(&folder).join("probe"));
    fs::write(&source, PROBE).expect("the folder can be written to");
    let compiler = env::var("CC").unwrap_or_else(|_| "cc".to_string());
    let mut command = Command::new(compiler);
    command.arg(&source).arg("-lzfp").arg("-o").arg(&program);
    command.stdout(Stdio::null()).stderr(Stdio::null());
    command.status().is_ok_and(|status| status.success())
}
