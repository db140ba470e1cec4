//! Links the static library of the proved crates.

#[path = "../staticlib.rs"]
mod staticlib;

fn main() {
    println!("cargo:rerun-if-changed=build.rs");
    println!("cargo:rerun-if-changed=../staticlib.rs");
    staticlib::link("windlassow");
}
