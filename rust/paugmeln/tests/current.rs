//! The archive that is linked is that of the sources as they stand.
//!
//! Cargo looks at times: an edit that sets an old time escapes it, and then these fail.

use std::fs;
use std::path::{Path, PathBuf};
use std::process::Command;

fn root() -> PathBuf {
    Path::new(env!("CARGO_MANIFEST_DIR")).join("../..")
}

#[test]
fn the_archive_is_that_of_the_sources() {
    let look = Command::new(root().join("tools/build"))
        .args(["--current", "library"])
        .status();
    assert!(look.expect("tools/build starts").success());
}

#[test]
fn the_archive_linked_is_the_one_that_is_there() {
    let record = fs::read_to_string(root().join("target/built-from/paugmeln_c"));
    let there: String = record.expect("a record").lines().collect();
    assert_eq!(there, env!("PAUGMELN_BUILT_FROM"));
}
