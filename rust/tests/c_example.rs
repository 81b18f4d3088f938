//! The C example, built against the same archive: what it prints is `c/expected`.
use std::path::Path;
use std::process::Command;

#[test]
fn prints_what_is_expected() {
    let root = Path::new(env!("CARGO_MANIFEST_DIR")).join("..");
    let folder =
        std::env::var("BARNSLING_LIB_DIR").map_or(root.join("target/staticlib"), Into::into);
    let program = Path::new(env!("CARGO_TARGET_TMPDIR")).join("c_example");
    let built = Command::new("cc")
        .args([
            "-std=c99",
            "-Wall",
            "-Wextra",
            "-Wpedantic",
            "-Werror",
            "-O2",
            "-I",
        ])
        .arg(root.join("include"))
        .arg(root.join("c/example.c"))
        .arg(folder.join("libboundary.a"))
        .arg("-o")
        .arg(&program)
        .status()
        .expect("cc");
    assert!(built.success());
    let out = Command::new(&program).output().unwrap();
    assert!(out.status.success());
    let expected = std::fs::read_to_string(root.join("c/expected")).unwrap();
    assert_eq!(expected, String::from_utf8(out.stdout).unwrap());
}
