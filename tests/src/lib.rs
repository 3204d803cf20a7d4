//! What the tests share: where the repository is, how its files are read, and how docs/TRACE.md is
//! taken apart.
//!
//! build.rs links the static libraries into this library alone. A function that one of them exports
//! is therefore declared in a module here, with a safe function around it that tests what its
//! contract asks, and the tests in tests/ call that.

use std::fs;
use std::path::{Path, PathBuf};

pub mod agreeing;
pub mod checking;
pub mod every_call;
pub mod guarded;
pub mod independent;
pub mod jobs;
pub mod large_stack;
pub mod large_tables;
pub mod machine_code;
pub mod match_reference;
pub mod matching;
pub mod names;
pub mod programs;
pub mod random;
pub mod requests;
pub mod station;
pub mod table;
pub mod table_reference;
pub mod trace;

/// The root of the repository.
pub fn repository() -> PathBuf {
    let tests = Path::new(env!("CARGO_MANIFEST_DIR"));
    tests
        .parent()
        .expect("tests/ stands in the repository")
        .to_path_buf()
}

/// The text of a file, by its path from the root; nothing where there is no such file of text.
pub fn text_of(path: &str) -> Option<String> {
    fs::read_to_string(repository().join(path)).ok()
}

/// The text of a file that must be there.
pub fn read(path: &str) -> String {
    text_of(path).unwrap_or_else(|| panic!("{path} is not there, or is not text"))
}

/// The paths of the repository's files from the root, in order, without what is built, here and in
/// each crate, and what git keeps for itself.
pub fn files() -> Vec<String> {
    let mut found = Vec::new();
    walk(&repository(), "", &mut found);
    found.sort();
    found
}

/// Whether a path is a crate's folder, as `crates/words/`.
fn is_crate(from_root: &str) -> bool {
    let name = from_root.strip_prefix("crates/");
    matches!(name.and_then(|name| name.split_once('/')), Some((_, "")))
}

fn walk(folder: &Path, from_root: &str, found: &mut Vec<String>) {
    let entries = fs::read_dir(folder).unwrap_or_else(|e| panic!("{}: {e}", folder.display()));
    for entry in entries {
        let entry = entry.expect("a folder's entry can be read");
        let name = entry.file_name().to_string_lossy().into_owned();
        // .git is a file where the checkout is one of several
        if name == ".git" || name == "target" {
            continue;
        }
        if name == "out" && is_crate(from_root) {
            continue;
        }
        let path = format!("{from_root}{name}");
        let kind = entry.file_type().expect("a folder's entry has a kind");
        if kind.is_dir() {
            walk(&entry.path(), &format!("{path}/"), found);
        } else if kind.is_file() {
            found.push(path);
        }
    }
}
