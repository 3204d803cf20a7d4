//! What `make install` puts in place is enough to build a host program and to list a job file.

use station_tests::programs::{built, output_of, printed};
use station_tests::{read, repository};
use std::fs;
use std::path::PathBuf;
use std::process::Command;

/// Installs under a folder, with what the gate has proved and built: `-o` keeps make from asking for
/// it again.
fn installed(folder: &str, prefix: &str, staged: bool) -> PathBuf {
    let stage = repository().join("target").join(folder);
    // what an earlier run left must not count
    fs::remove_dir_all(&stage).ok();
    let mut make = Command::new("make");
    make.args(["-C"])
        .arg(repository())
        .args(["-o", "target/bin/listing"])
        .args(["-o", "target/staticlib/libstation.a", "install"]);
    if staged {
        make.arg(format!("PREFIX={prefix}"))
            .arg(format!("DESTDIR={}", stage.display()));
    } else {
        make.arg(format!("PREFIX={}", stage.display()));
    }
    printed(&mut make);
    stage
}

/// What pkg-config says of the library that stands there.
fn flags(prefix: &PathBuf, which: &str) -> Vec<String> {
    let mut command = Command::new("pkg-config");
    command
        .env("PKG_CONFIG_PATH", prefix.join("lib/pkgconfig"))
        .args([which, "station"]);
    let text = printed(&mut command);
    text.split_whitespace().map(String::from).collect()
}

#[test]
fn a_host_program_is_built_by_pkg_config() {
    let prefix = installed("installed", "", false);
    let cflags = flags(&prefix, "--cflags");
    let mut options = vec!["-std=c11", "-O2"];
    options.extend(cflags.iter().map(String::as_str));
    let linked = flags(&prefix, "--libs");
    let program = built(
        "gcc",
        &options,
        "examples/host.c",
        &linked,
        "host-installed",
    );
    let ran = printed(&mut Command::new(program));
    assert_eq!(ran, read("examples/host.out"));
}

#[test]
fn the_listing_program_and_its_page() {
    let stage = installed("staged", "/usr", true);
    let file = fs::read(repository().join("examples/two-jobs.job")).expect("the job file is there");
    let bytes = output_of(&stage.join("usr/bin/station-listing"), &file);
    let listed = String::from_utf8(bytes).expect("it prints text");
    let page = fs::read_to_string(stage.join("usr/share/man/man1/station-listing.1"))
        .expect("the page is in place");
    // the example at the end of the page
    assert!(page.contains(&format!("\n{listed}.fi\n")), "{listed}");
    // one line for each answer that a listing can show
    for answer in (0..15).filter(|&answer| answer != 2) {
        let lines = page
            .lines()
            .filter(|line| line.starts_with(&format!("{answer}\t")));
        assert_eq!(lines.count(), 1, "answer {answer}");
    }
    // the number that nobody may forget
    assert!(page.contains("48 hours"));
    assert!(stage.join("usr/include/station.h").is_file());
    assert!(stage.join("usr/lib/libstation.a").is_file());
    let pc = fs::read_to_string(stage.join("usr/lib/pkgconfig/station.pc")).expect("it is there");
    assert!(pc.starts_with("prefix=/usr\n"), "{pc}");
}
