//! The list of instructions that no call can reach, tests/unreachable.txt, and what a run says of it.

use super::listing::Function;
use super::run::{working, Unrun};

/// Instructions that stand one behind the other, and why no call reaches them.
#[derive(Clone, Debug)]
pub struct Listed {
    /// The function's own name, without the path of its module.
    pub function: String,
    pub reason: String,
    pub texts: Vec<String>,
}

/// A heading is a function and a reason; paragraphs of instructions stand below it.
pub fn listed(text: &str) -> Vec<Listed> {
    let mut found: Vec<Listed> = Vec::new();
    let mut heading = None;
    let mut open = false;
    for line in text.lines().filter(|line| !line.starts_with('#')) {
        if let Some(instruction) = line.strip_prefix("    ") {
            let (function, reason) = heading.clone().expect("a heading before instructions");
            if !open {
                let texts = Vec::new();
                found.push(Listed {
                    function,
                    reason,
                    texts,
                });
            }
            open = true;
            let last = found.last_mut().expect("one is open");
            last.texts.push(instruction.trim().to_string());
            continue;
        }
        open = false;
        if !line.is_empty() {
            let (function, reason) = line.split_once(": ").expect("a function and a reason");
            heading = Some((function.to_string(), reason.to_string()));
        }
    }
    found
}

fn own_name(path: &str) -> &str {
    path.rsplit("::").next().unwrap_or(path)
}

fn shown(function: &str, texts: &[String]) -> String {
    format!("{}:\n    {}", own_name(function), texts.join("\n    "))
}

/// What is wrong: what was not run and is not listed, and what is listed and was run or is not there.
pub fn faults(functions: &[&Function], unrun: &[Unrun], listed: &[Listed]) -> Vec<String> {
    let mut faults = Vec::new();
    let mut left = listed.to_vec();
    for one in unrun {
        let like = |l: &Listed| l.function == own_name(&one.function) && l.texts == one.texts;
        match left.iter().position(like) {
            Some(i) => {
                left.remove(i);
            }
            None => {
                let shown = shown(&one.function, &one.texts);
                faults.push(format!("not run, from {:x} of {shown}", one.at));
            }
        }
    }
    for one in left {
        let there = functions.iter().any(|function| {
            let texts: Vec<String> = working(function).map(|i| i.text()).collect();
            let mut windows = texts.windows(one.texts.len());
            own_name(&function.name) == one.function && windows.any(|w| w == one.texts)
        });
        let what = match there {
            true => "listed, and was run, or stands among others that were not",
            false => "listed, and is not there",
        };
        faults.push(format!("{what}: {}", shown(&one.function, &one.texts)));
    }
    faults
}
