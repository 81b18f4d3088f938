//! Links, for the times, the archive that `compare/run` makes of `bench/`. The crate `rust/` links the other one.
fn main() {
    let archive = concat!(env!("CARGO_MANIFEST_DIR"), "/../target/staticlib");
    if std::env::var_os("CARGO_FEATURE_BENCH").is_some() {
        println!("cargo:rustc-link-search=native={archive}");
        println!("cargo:rustc-link-lib=static=bench");
        println!("cargo:rerun-if-changed={archive}/libbench.a");
    }
}
