//! The archive, the header and the crate are of one version, and a crate with another archive says so.
use barnsling::{lent, raw::answers::same_version};
use std::path::Path;

#[test]
fn archive_and_crate_are_of_one_version() {
    assert_eq!(lent::version(), lent::VERSION);
    same_version(lent::version());
}

#[test]
fn header_and_crate_are_of_one_version() {
    let header = Path::new(env!("CARGO_MANIFEST_DIR")).join("../include/barnsling.h");
    let header = std::fs::read_to_string(header).unwrap();
    let defined = header
        .lines()
        .find_map(|line| line.strip_prefix("#define BARNSLING_VERSION "));
    let number = defined.and_then(|words| words.split_whitespace().next());
    assert_eq!(number, Some(lent::VERSION.to_string().as_str()));
}

#[test]
#[should_panic(expected = "and this crate is written for version")]
fn another_version_is_told() {
    same_version(lent::VERSION + 1);
}
