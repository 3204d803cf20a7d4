//! The programs that `rt ci` and `rt run` make, run with bytes on standard input, and C programs that are
//! built with the machine's compilers.

use crate::repository;
use std::ffi::OsStr;
use std::io::Write;
use std::path::{Path, PathBuf};
use std::process::{Command, ExitStatus, Stdio};
use std::thread;

/// What a program writes for these bytes; it must end well.
pub fn output_of(program: &Path, input: &[u8]) -> Vec<u8> {
    let mut child = Command::new(program)
        .stdin(Stdio::piped())
        .stdout(Stdio::piped())
        .spawn()
        .unwrap_or_else(|e| panic!("{}: {e}", program.display()));
    let mut to_child = child.stdin.take().expect("its input is piped");
    to_child.write_all(input).expect("it reads its input");
    drop(to_child);
    let output = child.wait_with_output().expect("it ends");
    assert!(output.status.success(), "{}", output.status);
    output.stdout
}

/// What the program of a crate writes for a file; the gate and tools/program put it there.
pub fn written_by(program: &str, file: &[u8]) -> Vec<u8> {
    output_of(&repository().join("target/bin").join(program), file)
}

/// What the listing program prints for a file.
pub fn listing(file: &[u8]) -> String {
    String::from_utf8(written_by("listing", file)).expect("it prints text")
}

/// How the listing program ends for a file where its standard output goes elsewhere, and what it says on
/// standard error.
pub fn listing_into(to: Stdio, file: &[u8]) -> (ExitStatus, String) {
    let mut child = Command::new(repository().join("target/bin/listing"))
        .stdin(Stdio::piped())
        .stdout(to)
        .stderr(Stdio::piped())
        .spawn()
        .expect("the program is there");
    let mut to_child = child.stdin.take().expect("its input is piped");
    to_child.write_all(file).expect("it reads its input");
    drop(to_child);
    let output = child.wait_with_output().expect("it ends");
    let said = String::from_utf8(output.stderr).expect("it says text");
    (output.status, said)
}

/// Runs a command that must end well, and gives what it prints.
pub fn printed(command: &mut Command) -> String {
    let output = command
        .output()
        .unwrap_or_else(|e| panic!("{command:?}: {e}"));
    let errors = String::from_utf8_lossy(&output.stderr);
    assert!(output.status.success(), "{command:?}: {errors}");
    String::from_utf8(output.stdout).expect("it prints text")
}

/// The same for a command that reads a text.
pub fn printed_for(command: &mut Command, input: &str) -> String {
    let output = answered_for(command, input.as_bytes());
    String::from_utf8(output).expect("it prints text")
}

/// The same for bytes. It may print before it has read all, so what it prints is read meanwhile.
pub fn answered_for(command: &mut Command, input: &[u8]) -> Vec<u8> {
    let mut child = command
        .stdin(Stdio::piped())
        .stdout(Stdio::piped())
        .stderr(Stdio::piped())
        .spawn()
        .unwrap_or_else(|e| panic!("{command:?}: {e}"));
    let mut to_child = child.stdin.take().expect("its input is piped");
    let input = input.to_vec();
    let writer = thread::spawn(move || to_child.write_all(&input));
    let output = child.wait_with_output().expect("it ends");
    let errors = String::from_utf8_lossy(&output.stderr);
    assert!(output.status.success(), "{command:?}: {errors}");
    let written = writer.join().expect("the writer ends");
    written.expect("it reads its input");
    output.stdout
}

/// Valgrind, for a program that is to be named next. What it finds ends the run with a status of its own.
pub fn valgrind() -> Command {
    let mut command = Command::new("valgrind");
    command.args(["--quiet", "--error-exitcode=9", "--track-origins=yes"]);
    command
}

/// Builds a C program, by its path from the root, and gives where it is. The options come before the
/// source, what it is linked to after it.
pub fn built<S: AsRef<OsStr>>(
    compiler: &str,
    options: &[&str],
    source: &str,
    linked: &[S],
    name: &str,
) -> PathBuf {
    let program = repository().join("target").join(name);
    printed(
        Command::new(compiler)
            .args(options)
            .args(["-Wall", "-Wextra", "-Werror"])
            .arg(repository().join(source))
            .args(["-x", "none"])
            .args(linked)
            .arg("-o")
            .arg(&program),
    );
    program
}

/// Builds a C program with the header and the library as they stand in the repository.
pub fn built_with_station(compiler: &str, options: &[&str], source: &str, name: &str) -> PathBuf {
    let header = format!("-I{}", repository().join("include").display());
    let options: Vec<&str> = options.iter().copied().chain([header.as_str()]).collect();
    let library = repository().join("target/staticlib/libstation.a");
    built(compiler, &options, source, &[library], name)
}
