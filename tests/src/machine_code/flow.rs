//! Where control goes inside a function.

use super::listing::{Function, Instruction};

/// What comes after an instruction: others of the function, by their place in it.
pub fn next(function: &Function, i: usize) -> Result<Vec<usize>, String> {
    let instruction = &function.instructions[i];
    let told = |what: &str| format!("{}: {:x}: {what}", function.name, instruction.at);
    let place = |at: u64| {
        let mut places = 0..function.instructions.len();
        places.find(|&k| function.instructions[k].at == at)
    };
    let following = || match function.instructions.get(i + 1) {
        Some(_) => Ok(i + 1),
        None => Err(told("the code runs past its end")),
    };
    match instruction.mnemonic.as_str() {
        "ret" if instruction.operands.is_empty() => Ok(vec![]),
        "ud2" => Ok(vec![]),
        "jmp" if instruction.is_indirect() => {
            if !by_a_table(function, i) {
                return Err(told("a jump through a register, and not by a table"));
            }
            let targets = function.tables.iter().flatten();
            let found: Option<Vec<usize>> = targets.map(|&at| place(at)).collect();
            match found {
                Some(found) if !found.is_empty() => Ok(found),
                _ => Err(told("a table that does not lead into the function")),
            }
        }
        _ if instruction.is_jump() => {
            let mut found = Vec::new();
            if instruction.mnemonic != "jmp" {
                found.push(following()?);
            }
            if leaves(function, instruction).is_none() {
                let target = instruction.leads_to().and_then(place);
                found.push(target.ok_or_else(|| told("a jump to no instruction"))?);
            }
            Ok(found)
        }
        other => {
            let known_to_end = ["ret", "hlt", "iret", "syscall", "sysenter", "int", "loop"];
            if known_to_end.iter().any(|name| other.starts_with(name)) {
                return Err(told("an end that is not understood"));
            }
            Ok(vec![following()?])
        }
    }
}

/// The function that a call or a jump goes to, where it leaves its own: by a relocation, or by the name
/// that objdump has for the target.
pub fn leaves(function: &Function, instruction: &Instruction) -> Option<String> {
    if let Some((name, _)) = &instruction.names {
        return Some(name.trim_start_matches(".text.").to_string());
    }
    let own = &function.instructions;
    let inside = |at: u64| at >= own[0].at && at <= own[own.len() - 1].at;
    match instruction.leads_to() {
        Some(at) if instruction.mnemonic == "call" || !inside(at) => {
            let unknown = || format!("{at:x}");
            Some(instruction.function_named().unwrap_or_else(unknown))
        }
        _ => None,
    }
}

/// Whether a jump takes an entry of a table: one is read by its number, the table's own address is added,
/// and the jump goes there. A copy into another register than the jump's may stand between.
fn by_a_table(function: &Function, i: usize) -> bool {
    let target = function.instructions[i].operands[0].trim_start_matches('*');
    let before = function.instructions[..i].iter().rev();
    let mut taken = before.skip_while(|copy| fills_another(copy, target));
    let (add, read) = match (taken.next(), taken.next()) {
        (Some(add), Some(read)) => (add, read),
        _ => return false,
    };
    let table = match &add.operands[..] {
        [table, sum] if add.mnemonic == "add" && sum == target => table,
        _ => return false,
    };
    let entry = format!("({table},");
    read.mnemonic == "movslq"
        && matches!(&read.operands[..], [from, to] if from.starts_with(&entry) && to == target)
}

/// Whether an instruction fills another register than this, whole, from a register or from the function's own frame.
fn fills_another(copy: &Instruction, register: &str) -> bool {
    let whole = |name: &String| name.starts_with("%r") && !name.ends_with(['d', 'w', 'b']);
    let own = |from: &String| whole(from) || from.starts_with("0x") && from.ends_with("(%rsp)");
    copy.mnemonic == "mov"
        && matches!(&copy.operands[..], [from, to] if own(from) && whole(to) && to != register)
}
