//! Links the static library of the two conversions.

#[path = "../staticlib.rs"]
mod staticlib;

fn main() {
    println!("cargo:rerun-if-changed=build.rs");
    println!("cargo:rerun-if-changed=../staticlib.rs");
    staticlib::link("conversions");
}
