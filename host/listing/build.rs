//! Has the listing program proved and built, and hands its path on to the package.
//!
//! Nothing is built if `WINDLASSOW_LISTING` names a program to be taken in its place.

#[path = "../kit.rs"]
mod kit;

fn main() {
    println!("cargo:rerun-if-changed=build.rs");
    println!("cargo:rerun-if-env-changed=WINDLASSOW_LISTING");
    if kit::is_left_out() || std::env::var_os("WINDLASSOW_LISTING").is_some() {
        return;
    }
    let root = kit::repository();
    let program = root.join("target/bin/listing");
    kit::made(&root, &program, "listing");
    println!("cargo:rustc-env=LISTING_PROGRAM={}", program.display());
}
