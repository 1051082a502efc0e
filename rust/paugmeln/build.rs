//! Links `target/staticlib/libpaugmeln.a` of the repository, after `tools/build` has seen to it that it was built from the sources as they stand.

use std::fs;
use std::path::{Path, PathBuf};
use std::process::Command;

/// What the archive is built from and by, beside the crates; cargo looks at these before each build.
const WATCHED: [&str; 3] = [
    "crates.txt",
    "tools/build",
    "target/staticlib/libpaugmeln.a",
];

/// What `rt` keeps in a crate's folder, and writes again at each of its runs.
const KEPT: &str = "out";

fn main() {
    let root = Path::new(env!("CARGO_MANIFEST_DIR")).join("../..");
    bring_up_to_date(&root);
    let watched = WATCHED.iter().map(|name| root.join(name));
    for path in watched.chain(sources(&root)) {
        println!("cargo:rerun-if-changed={}", path.display());
    }
    println!("cargo:rustc-env=PAUGMELN_BUILT_FROM={}", built_from(&root));
    let folder = root.join("target/staticlib");
    println!("cargo:rustc-link-search=native={}", folder.display());
    println!("cargo:rustc-link-lib=static=paugmeln");
}

fn bring_up_to_date(root: &Path) {
    let built = Command::new(root.join("tools/build"))
        .arg("library")
        .status();
    let built = built.expect("tools/build starts");
    assert!(built.success(), "tools/build library failed");
}

/// All that stands in the crates' folders, but what is kept there.
fn sources(root: &Path) -> Vec<PathBuf> {
    let folders = listed(&root.join("crates"));
    let folders = folders.iter().filter(|path| path.is_dir());
    let parts = folders.flat_map(|folder| listed(folder));
    parts.filter(|path| !path.ends_with(KEPT)).collect()
}

fn listed(folder: &Path) -> Vec<PathBuf> {
    let entries = fs::read_dir(folder).expect("the folder of a crate is read");
    let paths = entries.map(|entry| entry.expect("it is read to its end").path());
    paths.collect()
}

/// The sums of the sources and of the archive, on one line.
fn built_from(root: &Path) -> String {
    let record = fs::read_to_string(root.join("target/built-from/paugmeln_c"));
    record
        .expect("tools/build leaves a record")
        .lines()
        .collect()
}
