//! objdump's text, taken apart. A line that is not known stops the test: nothing is passed over.

use std::collections::BTreeMap;

#[derive(Clone, Debug, PartialEq)]
pub struct Instruction {
    pub at: u64,
    pub mnemonic: String,
    pub operands: Vec<String>,
    /// What a relocation names here: a symbol or a section, and a number to add.
    pub names: Option<(String, i64)>,
}

#[derive(Debug)]
pub struct Function {
    pub name: String,
    pub instructions: Vec<Instruction>,
    /// By table of addresses, the places in this function that it leads to. A jump through a register
    /// takes one of them.
    pub tables: Vec<Vec<u64>>,
}

#[derive(Debug)]
pub struct Listing {
    pub functions: Vec<Function>,
}

/// What may stand before a mnemonic.
const PREFIXES: [&str; 14] = [
    "data16", "addr32", "bnd", "notrack", "cs", "ds", "es", "fs", "gs", "ss", "rep", "repz",
    "repnz", "lock",
];

impl Instruction {
    fn of(at: u64, text: &str) -> Instruction {
        // objdump says behind a # what it computed, and in < > where a jump leads
        let text = text.split('#').next().unwrap_or("").trim();
        let mut rest = text;
        let mnemonic = loop {
            let (word, after) = rest.split_once(char::is_whitespace).unwrap_or((rest, ""));
            rest = after.trim_start();
            if !PREFIXES.contains(&word) || rest.is_empty() {
                break word;
            }
        };
        Instruction {
            at,
            mnemonic: mnemonic.to_string(),
            operands: parted(rest),
            names: None,
        }
    }

    /// What fills the space up to the next address that a loop begins at; it does nothing.
    pub fn is_padding(&self) -> bool {
        let same = self.operands == ["%ax", "%ax"];
        self.mnemonic.starts_with("nop")
            || self.mnemonic == "int3"
            || self.mnemonic == "xchg" && same
    }

    /// Its text without what the linker decides: where a jump or a call leads, and how far off a constant
    /// lies.
    pub fn text(&self) -> String {
        if self.is_jump() || self.mnemonic == "call" {
            return self.mnemonic.clone();
        }
        let near = |operand: &String| match operand.ends_with("(%rip)") {
            true => "(%rip)".to_string(),
            false => operand.clone(),
        };
        let operands: Vec<String> = self.operands.iter().map(near).collect();
        let text = format!("{} {}", self.mnemonic, operands.join(","));
        text.trim_end().to_string()
    }

    pub fn is_jump(&self) -> bool {
        self.mnemonic.starts_with('j')
    }

    /// Whether it goes where a register or a place in memory says.
    pub fn is_indirect(&self) -> bool {
        matches!(self.operands.first(), Some(operand) if operand.starts_with('*'))
    }

    /// The address that a direct jump or call leads to.
    pub fn leads_to(&self) -> Option<u64> {
        let operand = self.operands.first()?;
        u64::from_str_radix(operand.split(' ').next()?, 16).ok()
    }

    /// The function that objdump names as the target, where it is the function's own beginning.
    pub fn function_named(&self) -> Option<String> {
        let (_, name) = self.operands.first()?.split_once(" <")?;
        let name = name.strip_suffix('>')?;
        (!name.contains("+0x")).then(|| name.to_string())
    }
}

/// Operands, parted by the commas that stand outside of brackets.
fn parted(text: &str) -> Vec<String> {
    let mut found = vec![String::new()];
    let mut depth = 0;
    for c in text.chars() {
        match c {
            '(' | '<' => depth += 1,
            ')' | '>' => depth -= 1,
            _ => {}
        }
        if c == ',' && depth == 0 {
            found.push(String::new());
        } else {
            found.last_mut().expect("there is one").push(c);
        }
    }
    found.retain(|operand| !operand.is_empty());
    found
}

/// A name with what is added to it: `memset-0x4`, `.text.f+0x3d1`.
fn named(text: &str) -> (String, i64) {
    for (sign, mark) in [(1, "+0x"), (-1, "-0x")] {
        if let Some((name, digits)) = text.rsplit_once(mark) {
            if let Ok(number) = i64::from_str_radix(digits, 16) {
                return (name.to_string(), sign * number);
            }
        }
    }
    (text.to_string(), 0)
}

/// Lines that say nothing of the code.
fn is_heading(line: &str) -> bool {
    line.is_empty()
        || line.starts_with("In archive ")
        || line.starts_with("Disassembly of section ")
        || line.contains(":     file format elf64-x86-64")
}

/// The places that relocations of a section of data name, each with its own place there.
type Places = BTreeMap<String, Vec<(i64, String, i64)>>;

fn places(relocations: &str) -> Places {
    let mut found = Places::new();
    let mut section = String::new();
    for line in relocations.lines() {
        if let Some(name) = line.strip_prefix("RELOCATION RECORDS FOR [") {
            section = name.trim_end_matches("]:").to_string();
        } else if !is_heading(line) && !line.starts_with("OFFSET ") {
            let words: Vec<&str> = line.split_whitespace().collect();
            let place = i64::from_str_radix(words[0], 16);
            let place = place.unwrap_or_else(|_| panic!("a relocation: {line}"));
            let (name, added) = named(words[2]);
            let of_section = found.entry(section.clone()).or_default();
            of_section.push((place, name, added));
        }
    }
    found
}

/// An address, a text, and where there is one a relocation with its own address, parted by tabs.
fn instruction(line: &str) -> Instruction {
    let parts: Vec<&str> = line.split('\t').collect();
    let at = parts[0].trim().trim_end_matches(':');
    let at = u64::from_str_radix(at, 16).unwrap_or_else(|_| panic!("not understood: {line}"));
    let (text, names) = match parts[..] {
        [_, text] => (text, None),
        [_, text, _, name] => (text, Some(named(name))),
        _ => panic!("not understood: {line}"),
    };
    Instruction {
        names,
        ..Instruction::of(at, text)
    }
}

impl Listing {
    /// By what `objdump -d -r -w` and `objdump -r -w` print.
    pub fn of(code: &str, relocations: &str) -> Listing {
        let mut functions: Vec<Function> = Vec::new();
        for line in code.lines() {
            if is_heading(line) {
                continue;
            }
            if let Some(name) = line.strip_suffix(">:") {
                let (_, name) = name.split_once(" <").expect("a function's name");
                functions.push(Function {
                    name: name.to_string(),
                    instructions: Vec::new(),
                    tables: Vec::new(),
                });
                continue;
            }
            let function = functions.last_mut().expect("code stands in a function");
            function.instructions.push(instruction(line));
        }
        let places = places(relocations);
        for function in &mut functions {
            function.tables = tables(function, &places);
        }
        Listing { functions }
    }

    pub fn function(&self, name: &str) -> Option<&Function> {
        // a relocation may name the section that a function is alone in
        let name = name.strip_prefix(".text.").unwrap_or(name);
        self.functions.iter().find(|f| f.name == name)
    }
}

/// The tables that a function takes the address of. An entry is a place less the table's own, so that the
/// table may lie anywhere; what is added in the relocation counts from the entry.
fn tables(function: &Function, places: &Places) -> Vec<Vec<u64>> {
    let own = format!(".text.{}", function.name);
    let mut starts: Vec<(String, i64)> = Vec::new();
    for instruction in &function.instructions {
        if let Some((name, added)) = &instruction.names {
            let in_code = places
                .get(name)
                .map_or(false, |all| all.iter().all(|(_, named, _)| *named == own));
            // counted from the end of the instruction, which the number stands at the end of
            let start = (name.clone(), added + 4);
            if in_code && !starts.contains(&start) {
                starts.push(start);
            }
        }
    }
    starts.sort();
    let end = |(name, start): &(String, i64)| {
        let next = starts.iter().filter(|s| s.0 == *name && s.1 > *start);
        next.map(|s| s.1).min().unwrap_or(i64::MAX)
    };
    let table = |begin: &(String, i64)| {
        let entries = places[&begin.0].iter();
        let inside = entries.filter(|e| e.0 >= begin.1 && e.0 < end(begin));
        inside.map(|e| (e.2 - (e.0 - begin.1)) as u64).collect()
    };
    starts.iter().map(table).collect()
}
