//! Links libboundary.a: of the folder that BARNSLING_LIB_DIR names, else the one that `.ci/archive` makes.
use std::path::Path;

fn main() {
    println!("cargo:rerun-if-env-changed=BARNSLING_LIB_DIR");
    let folder = std::env::var("BARNSLING_LIB_DIR")
        .unwrap_or_else(|_| concat!(env!("CARGO_MANIFEST_DIR"), "/../target/staticlib").into());
    let archive = Path::new(&folder).join("libboundary.a");
    let Ok(bytes) = std::fs::read(&archive) else {
        stop(&format!("there is no {}", archive.display()));
    };
    // the archive's own list of names; which version it is, is asked when a grid is made
    if !has(&bytes, b"barnsling_version") {
        stop(&format!("{} is older than this crate", archive.display()));
    }
    println!("cargo:rerun-if-changed={}", archive.display());
    println!("cargo:rustc-link-search=native={folder}");
    println!("cargo:rustc-link-lib=static=boundary");
}

fn has(bytes: &[u8], name: &[u8]) -> bool {
    bytes.windows(name.len()).any(|w| w == name)
}

/// Says what is wrong with the archive and how to get one, and ends the build.
fn stop(wrong: &str) -> ! {
    eprintln!("barnsling: {wrong}");
    eprintln!("barnsling: run `.ci/archive` in the root of the repository (some minutes), or rust/test, which does so;");
    eprintln!("barnsling: or set BARNSLING_LIB_DIR to a folder that has libboundary.a");
    std::process::exit(1);
}
