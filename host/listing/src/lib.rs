//! The proved listing program, found and run as it is built.
//!
//! The package's tests compare it with the reference, and the program `million` measures it.

mod pipe;
mod process;

pub use pipe::feed;
pub use process::{peak_kib, wait_for};
use std::path::PathBuf;

/// The program: `target/bin/listing` of the repository, or the one that `WINDLASSOW_LISTING` names.
pub fn program() -> PathBuf {
    if let Some(named) = std::env::var_os("WINDLASSOW_LISTING") {
        return named.into();
    }
    match option_env!("LISTING_PROGRAM") {
        Some(built) => built.into(),
        None => {
            panic!("this package was built without the listing program, and WINDLASSOW_LISTING names none")
        }
    }
}
