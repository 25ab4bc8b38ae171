//! Links the static library that tools/staticlib builds.
use std::path::PathBuf;

fn main() {
    let here = PathBuf::from(std::env::var_os("CARGO_MANIFEST_DIR").expect("cargo sets it"));
    let folder = here.join("../target/staticlib");
    println!("cargo::rustc-link-search=native={}", folder.display());
    println!("cargo::rustc-link-lib=static=crepedum");
    println!(
        "cargo::rerun-if-changed={}",
        folder.join("libcrepedum.a").display()
    );
}
