//! Links each static library that staticlibs.txt names. `tools/staticlib NAME` makes it.

use std::path::Path;
use std::{env, fs};

fn main() {
    let tests = env::var("CARGO_MANIFEST_DIR").expect("cargo names the folder of tests/");
    let list = Path::new(&tests).join("staticlibs.txt");
    let archives = Path::new(&tests).join("../target/staticlib");
    println!("cargo:rerun-if-changed=build.rs");
    println!("cargo:rerun-if-changed={}", list.display());
    println!("cargo:rustc-link-search=native={}", archives.display());

    let text = fs::read_to_string(&list).expect("tests/staticlibs.txt is there");
    for line in text.lines() {
        let name = line.split('#').next().unwrap_or("").trim();
        if name.is_empty() {
            continue;
        }
        let archive = archives.join(format!("lib{name}.a"));
        if !archive.is_file() {
            panic!(
                "lib{name}.a is not there: `tools/staticlib {name}` makes it, and `make test` all"
            );
        }
        println!("cargo:rerun-if-changed={}", archive.display());
        println!("cargo:rustc-link-lib=static={name}");
    }
}
