//! Links the static library that is built from the proved crate `stutter`.

use std::env;
use std::path::Path;

fn main() {
    let package = env::var("CARGO_MANIFEST_DIR").expect("cargo names the package's folder");
    let folder = Path::new(&package).join("../../target/staticlib");
    let library = folder.join("libstutter.a");
    println!("cargo:rerun-if-changed={}", library.display());

    let architecture = env::var("CARGO_CFG_TARGET_ARCH").expect("cargo names the architecture");
    if architecture != "x86_64" {
        fail("libstutter.a is for x86-64, and links into no program for another processor.");
    }
    if !library.is_file() {
        fail(
            "target/staticlib/libstutter.a is missing. \
             Run `make library` in the repository's folder, and then this again.",
        );
    }
    println!("cargo:rustc-link-search=native={}", folder.display());
    println!("cargo:rustc-link-lib=static=stutter");
}

fn fail(why: &str) -> ! {
    eprintln!("{why}");
    std::process::exit(1);
}
