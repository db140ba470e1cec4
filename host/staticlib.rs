//! Shared by the build scripts: finds a static library that the Rattle kit writes, or has it written.

#[path = "kit.rs"]
mod kit;

/// Links `target/staticlib/libNAME.a` of the repository into the package being built.
///
/// The archive is made with `tools/built NAME` if it is missing or older than a file of the crates. With
/// `WINDLASSOW_NO_LINK` set nothing is linked.
pub fn link(name: &str) {
    if kit::is_left_out() {
        return;
    }
    let root = kit::repository();
    let folder = root.join("target/staticlib");
    kit::made(&root, &folder.join(format!("lib{name}.a")), name);
    println!("cargo:rustc-link-search=native={}", folder.display());
    println!("cargo:rustc-link-lib=static={name}");
}
