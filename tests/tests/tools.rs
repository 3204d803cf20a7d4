//! What the Makefile runs from tools/, in small repositories with a stand-in for the kit that says at once
//! what the kit takes minutes to say.

use station_tests::repository;
use std::fs;
use std::os::unix::fs::PermissionsExt;
use std::path::{Path, PathBuf};
use std::process::Command;
use std::sync::{Mutex, MutexGuard, PoisonError};

/// Notes what it is asked for. A crate is proved unless its source says `false`; one that says `unfit` is
/// refused as the kit refuses an edit that its proof file no longer fits. An edit is put into a copy of its
/// crate, and one that does not fit is told in the kit's words.
const KIT: &str = r#"#!/bin/bash
echo "$*" >>"$ASKED"
must_fail() { # CRATE EDIT
    label="must-fail $1/$(basename "$2")"
    file=$(sed -n 's/^file: //p' "$2") old=$(sed -n 's/^old: //p' "$2") new=$(sed -n 's/^new: //p' "$2")
    if ! grep -q '^new:' "$2"; then
        echo "rt: $label: BAD EDIT: it has no 'old:' and 'new:' pair"
        return
    fi
    found=$(grep -o -F -e "$old" "crates/$1/$file" | wc -l)
    if [ "$found" -ne 1 ]; then
        echo "rt: $label: BAD EDIT: an 'old:' text is in $file $found times, and not once"
        return
    fi
    text=$(cat "crates/$1/$file")
    text=${text/"$old"/"$new"}
    if grep -q unfit <<<"$text"; then
        echo "rt: $label: refused, as it must be (only because a proof file names what the edit took away, so this says little of the contract: change a value and keep the names): proofs/F.antt:1:1: error: the record has no field \`x\`"
    elif grep -q false <<<"$text"; then
        echo "rt: $label: refused, as it must be: proofs/F.antt:1:1: error: it does not hold"
    else
        echo "rt: $label: NOT REFUSED: the crate is still proved with this edit (one that means the same as before cannot be refused: remove it)"
    fi
}
case $1 in
version) echo "a kit" ;;
check) ! grep -q false src/lib.rt ;;
lib)
    name=$(basename "$PWD")
    ! grep -q false ../*/src/lib.rt || exit 1
    mkdir -p out && cat ../*/src/lib.rt >"out/lib$name.a"
    ;;
must-fail)
    shift
    for crate in "$@"; do
        for edit in "crates/$crate/must-fail"/*.edit; do must_fail "$crate" "$edit"; done
    done
    ;;
esac
"#;

/// A file that is open to be written cannot be run, and a program that another test starts at that moment has it open
/// too, until it runs. So the small repositories stand one at a time.
static ALONE: Mutex<()> = Mutex::new(());

/// A repository of its own, with the tools and the stand-in, which goes when the test ends.
struct Small {
    folder: PathBuf,
    _alone: MutexGuard<'static, ()>,
}

impl Drop for Small {
    fn drop(&mut self) {
        fs::remove_dir_all(&self.folder).ok();
    }
}

impl Small {
    fn new(name: &str, crates: &str) -> Small {
        // outside the repository, whose every file of Rattle belongs to a crate of its own
        let name = format!("station-{name}-{}", std::process::id());
        let small = Small {
            folder: std::env::temp_dir().join(name),
            _alone: ALONE.lock().unwrap_or_else(PoisonError::into_inner),
        };
        fs::remove_dir_all(&small.folder).ok();
        for tool in ["edits", "staticlib"] {
            let from = repository().join("tools").join(tool);
            small.put(
                &format!("tools/{tool}"),
                &fs::read_to_string(from).expect("the tool is there"),
            );
        }
        small.put("kit/rt", KIT);
        small.put("crates.txt", crates);
        small
    }

    fn put(&self, path: &str, text: &str) {
        let path = self.folder.join(path);
        fs::create_dir_all(path.parent().expect("a file stands in a folder"))
            .expect("a folder is made");
        fs::write(&path, text).expect("a file is written");
        fs::set_permissions(&path, fs::Permissions::from_mode(0o755)).expect("it may be run");
    }

    /// Whether a tool ends well, and what it prints.
    fn run(&self, tool: &str, words: &[&str]) -> (bool, String) {
        let path = std::env::var("PATH").expect("there is a path");
        let output = Command::new(self.folder.join("tools").join(tool))
            .args(words)
            .env(
                "PATH",
                format!("{}:{path}", self.folder.join("kit").display()),
            )
            .env("ASKED", self.folder.join("asked"))
            .env("RT_JOBS", "2")
            .output()
            .expect("the tool runs");
        (
            output.status.success(),
            String::from_utf8_lossy(&output.stdout).into_owned(),
        )
    }

    /// How often a library was proved so far.
    fn proved(&self) -> usize {
        let asked = fs::read_to_string(self.folder.join("asked")).expect("the kit was asked");
        asked.lines().filter(|line| line.starts_with("lib")).count()
    }

    fn is_there(&self, path: &str) -> bool {
        Path::new(&self.folder.join(path)).exists()
    }
}

#[test]
fn a_library_is_proved_again_where_something_changed() {
    let small = Small::new(
        "tools-staticlib",
        "below:\nother:\nmiddle: below\ntop: middle\ntop_c staticlib: top\n",
    );
    for name in ["below", "other", "middle", "top", "top_c"] {
        small.put(&format!("crates/{name}/src/lib.rt"), "true");
    }
    let mut wanted = 0;
    let mut made = |again: bool, why: &str| {
        wanted += usize::from(again);
        assert!(small.run("staticlib", &["top"]).0, "{why}");
        assert_eq!(small.proved(), wanted, "{why}");
    };
    made(true, "it was never made");
    made(false, "nothing changed");
    small.put("crates/other/src/lib.rt", "true too");
    made(false, "the library does not know that crate");
    small.put("crates/top/src/lib.rt", "true too");
    made(true, "its own source changed");
    small.put("crates/below/specs/Lib.antt", "a definition");
    made(
        true,
        "a definition changed that it knows through another crate",
    );
    small.put("crates/top/proofs/f/Answers.antt", "a proof");
    made(true, "a proof changed");
    small.put(
        "crates.txt",
        "below:\nother:\nmiddle: below\ntop: middle other\ntop_c staticlib: top\n",
    );
    made(true, "what it knows changed");
    small.put("kit/rt", &KIT.replace("a kit", "another kit"));
    made(true, "the kit changed");
    small.put("target/staticlib/libtop.a", "something else");
    made(true, "the archive is not the one that was made");
    made(false, "nothing changed again");
    small.put("crates/top/out/rlib/src/lib.rt", "made by the kit");
    made(false, "what is built is no source");
}

#[test]
fn a_library_that_is_not_proved_leaves_no_sums() {
    let small = Small::new("tools-unproved", "top:\ntop_c staticlib: top\n");
    small.put("crates/top/src/lib.rt", "true");
    small.put("crates/top_c/src/lib.rt", "true");
    assert!(small.run("staticlib", &["top"]).0);
    assert!(small.is_there("target/staticlib/top.sums"));
    small.put("crates/top/src/lib.rt", "false");
    assert!(!small.run("staticlib", &["top"]).0);
    assert!(!small.is_there("target/staticlib/top.sums"));
    // and so it is tried again, though nothing changed
    assert!(!small.run("staticlib", &["top"]).0);
    assert_eq!(small.proved(), 3);
}

/// An edit of the one line that each crate here has.
fn edit(old: &str, new: &str) -> String {
    format!("file: src/lib.rt\nold: {old}\nnew: {new}\n")
}

#[test]
fn all_edits_are_tried_and_counted() {
    let small = Small::new("tools-edits", "below:\ntop: below\n");
    for name in ["below", "top"] {
        small.put(&format!("crates/{name}/src/lib.rt"), "it is true\n");
        small.put(
            &format!("crates/{name}/must-fail/wrong.edit"),
            &edit("true", "false"),
        );
        small.put(
            &format!("crates/{name}/edits/wrong_too.edit"),
            &edit("is true", "is false"),
        );
    }
    let (good, said) = small.run("edits", &[]);
    assert!(good, "{said}");
    let mut lines: Vec<&str> = said.lines().collect();
    assert_eq!(lines.pop(), Some("4 refused, 0 not"));
    assert!(lines.pop().expect("a line").starts_with("it took "));
    lines.sort();
    for (line, label) in lines.iter().zip([
        "below/wrong",
        "below/wrong_too",
        "top/wrong",
        "top/wrong_too",
    ]) {
        // the error is the edited crate's own: no edit of another one is left in the copy
        let wanted = format!("{label}: refused, first at proofs/F.antt:1:1");
        assert_eq!(*line, wanted, "{said}");
    }
    assert!(small
        .run("edits", &["top"])
        .1
        .ends_with("2 refused, 0 not\n"));
}

#[test]
fn edits_that_say_nothing_are_counted_as_not_refused() {
    let small = Small::new("tools-weak-edits", "top:\n");
    small.put("crates/top/src/lib.rt", "it is true, and it is known\n");
    small.put("crates/top/must-fail/wrong.edit", &edit("true", "false"));
    small.put("crates/top/must-fail/right.edit", &edit("true", "right"));
    small.put("crates/top/edits/unfit.edit", &edit("true", "unfit"));
    small.put("crates/top/edits/not_there.edit", &edit("nowhere", "false"));
    small.put("crates/top/edits/there_twice.edit", &edit("it is", "false"));
    small.put(
        "crates/top/edits/nothing.edit",
        "file: src/lib.rt\nold: true\n",
    );
    let (good, said) = small.run("edits", &["top"]);
    assert!(!good);
    for line in [
        "top/right: NOT REFUSED",
        "top/unfit: NOT TELLING",
        "top/not_there: NOT TRIED",
        "top/there_twice: NOT TRIED",
        "top/nothing: NOT TRIED",
    ] {
        assert!(said.contains(line), "{line}: {said}");
    }
    assert!(said.ends_with("1 refused, 5 not\n"), "{said}");
}
