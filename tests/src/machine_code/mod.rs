//! The machine code that is linked, as objdump lists it. What is proved is the source on the language's own
//! machine; these checks look at what the compiler made of it.

pub mod calls;
pub mod flow;
pub mod listing;
pub mod probes;
pub mod run;
pub mod stack;
pub mod unreachable;

use crate::programs::printed;
use crate::repository;
use listing::Listing;
use std::path::Path;
use std::process::Command;

fn objdump(options: &[&str], file: &Path) -> String {
    printed(Command::new("objdump").args(options).arg(file))
}

/// The code of a file, and what its tables lead to.
pub fn of_file(file: &Path) -> Listing {
    let options = ["-d", "-r", "-z", "-w", "--no-show-raw-insn"];
    Listing::of(&objdump(&options, file), &objdump(&["-r", "-w"], file))
}

/// The code of the library.
pub fn of_library() -> Listing {
    of_file(&repository().join("target/staticlib/libstation.a"))
}

/// The code of a program, as the gate and tools/program put it there.
pub fn of_program(name: &str) -> Listing {
    of_file(&repository().join("target/bin").join(name))
}
