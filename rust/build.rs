//! Links the archive that `make lib` builds, or the one that `JIWARBEND_ARCHIVE` names by its whole path, under whatever name it has. Without
//! an archive `cargo check` and `cargo doc` work, and what must be linked fails after a word on what to run.
use std::path::PathBuf;

fn main() {
    let here = PathBuf::from(std::env::var("CARGO_MANIFEST_DIR").unwrap());
    let out = PathBuf::from(std::env::var("OUT_DIR").unwrap());
    let archive = std::env::var_os("JIWARBEND_ARCHIVE").map_or_else(|| here.join("../build/lib/libjiwarbend.a"), PathBuf::from);
    println!("cargo:rerun-if-env-changed=JIWARBEND_ARCHIVE");
    println!("cargo:rerun-if-changed={}", archive.display());
    println!("cargo:rustc-link-search=native={}", out.display());
    println!("cargo:rustc-link-lib=static=jiwarbend");
    // The linker finds it under the name that it looks for.
    let copy = out.join("libjiwarbend.a");
    let _ = std::fs::remove_file(&copy);
    if let Err(error) = std::fs::copy(&archive, &copy) {
        println!(
            "cargo:warning=the proved archive {} cannot be read ({error}): run `make lib` at the root of the repository, or name the archive in \
             JIWARBEND_ARCHIVE",
            archive.display()
        );
    }
}
