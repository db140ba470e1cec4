//! `./windlassow copy`: the command line of [`copy_archive`].
#![forbid(unsafe_code)]

use std::process::ExitCode;

fn main() -> ExitCode {
    copy_archive::run(std::env::args_os().skip(1)).into()
}
