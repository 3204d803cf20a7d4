//! The most stack that a function takes, from the instructions that change the stack pointer.

use super::calls::called;
use super::flow::{leaves, next};
use super::listing::{Function, Instruction, Listing};
use super::probes::{number, probed, LENGTH};
use std::collections::BTreeMap;

/// What a call puts on the stack by itself: where to return to.
const RETURN: u64 = 8;

/// Whether it changes the stack pointer by itself, whatever its operands are.
fn is_of_the_stack(mnemonic: &str) -> bool {
    let names = ["push", "pop", "enter", "leave"];
    mnemonic != "popcnt" && names.iter().any(|name| mnemonic.starts_with(name))
}

fn is_stack_pointer(operand: &str) -> bool {
    ["%rsp", "%esp", "%sp", "%spl"].contains(&operand)
}

/// By how much an instruction moves the stack pointer down; nothing where it is not understood.
fn moved(instruction: &Instruction) -> Option<i64> {
    let operands: Vec<&str> = instruction.operands.iter().map(String::as_str).collect();
    let is_register = |operand: &str| operand.starts_with('%');
    // of 64 bits, by the length of its name
    let is_whole = |operand: &str| operand.len() >= 4 && !is_stack_pointer(operand);
    match (instruction.mnemonic.as_str(), &operands[..]) {
        ("push", [what]) if is_whole(what) || !is_register(what) => Some(8),
        ("pop", [what]) if is_whole(what) && is_register(what) => Some(-8),
        ("sub", [by, "%rsp"]) => Some(number(by)? as i64),
        ("add", [by, "%rsp"]) => Some(-(number(by)? as i64)),
        // the address of what lies at its end, as lea gives it of what lies above
        ("mov", ["%rsp", to]) if is_register(to) && !is_stack_pointer(to) => Some(0),
        (name, _) => {
            let named = operands.iter().any(|&operand| is_stack_pointer(operand));
            (!named && !is_of_the_stack(name)).then_some(0)
        }
    }
}

/// How far below the stack pointer an instruction reaches; nothing where that cannot be told.
fn below(instruction: &Instruction) -> Option<u64> {
    let mut most = 0;
    for operand in &instruction.operands {
        if let Some((distance, inside)) = operand.split_once("(%rsp") {
            if let Some(digits) = distance.strip_prefix("-0x") {
                if inside != ")" {
                    return None;
                }
                most = most.max(u64::from_str_radix(digits, 16).ok()?);
            }
        } else if operand.contains("%rsp,") {
            // as an index it cannot be encoded
            return None;
        }
    }
    Some(most)
}

/// A function's own frame.
struct Frame {
    /// By instruction, how deep the stack is before it: the same by every way that leads there.
    depths: Vec<u64>,
    most: u64,
}

fn frame(function: &Function) -> Result<Frame, String> {
    let all = &function.instructions;
    let told = |i: usize, what: &str| {
        let text = format!("{} {}", all[i].mnemonic, all[i].operands.join(","));
        format!("{}: {:x}: {text}: {what}", function.name, all[i].at)
    };
    let mut found: Vec<Option<u64>> = vec![None; all.len()];
    let mut most = 0;
    let mut open = vec![(0, 0u64)];
    while let Some((i, depth)) = open.pop() {
        most = most.max(depth);
        match found[i] {
            Some(same) if same == depth => continue,
            Some(_) => return Err(told(i, "reached with two depths of the stack")),
            None => found[i] = Some(depth),
        }
        if let Some(size) = probed(function, i) {
            found[i + 1..i + LENGTH].fill(Some(depth + size));
            open.push((i + LENGTH, depth + size));
            continue;
        }
        let by = moved(&all[i]).ok_or_else(|| told(i, "its stack is not understood"))?;
        let below = below(&all[i]).ok_or_else(|| told(i, "its reach is not understood"))?;
        most = most.max(depth + below);
        let after = u64::try_from(depth as i64 + by);
        let after = after.map_err(|_| told(i, "the stack rises above where it began"))?;
        let leaves = all[i].is_jump() && leaves(function, &all[i]).is_some();
        if depth != 0 && (leaves || all[i].mnemonic == "ret") {
            return Err(told(i, "the frame is still there at the end"));
        }
        open.extend(next(function, i)?.into_iter().map(|k| (k, after)));
    }
    let reached = |i: usize| match found[i] {
        None if !all[i].is_padding() => Err(told(i, "no way leads here")),
        depth => Ok(depth.unwrap_or(0)),
    };
    let depths: Result<Vec<u64>, String> = (0..all.len()).map(reached).collect();
    depths.map(|depths| Frame { depths, most })
}

/// By name, the most stack that each function takes, with where its caller goes on and with all that it
/// calls. What is called outside the library counts for its return alone.
pub fn most(listing: &Listing) -> Result<BTreeMap<String, u64>, String> {
    let mut found = BTreeMap::new();
    for function in &listing.functions {
        of(listing, function, &mut Vec::new(), &mut found)?;
    }
    Ok(found)
}

fn of(
    listing: &Listing,
    function: &Function,
    above: &mut Vec<String>,
    found: &mut BTreeMap<String, u64>,
) -> Result<u64, String> {
    if let Some(&known) = found.get(&function.name) {
        return Ok(known);
    }
    if above.contains(&function.name) {
        return Err(format!("{} reaches itself", function.name));
    }
    above.push(function.name.clone());
    let Frame { depths, mut most } = frame(function)?;
    for (i, name) in called(function) {
        let of_callee = match listing.function(&name) {
            None => RETURN,
            Some(callee) => of(listing, callee, above, found)?,
        };
        // a jump leaves its own return behind for the other
        let is_call = function.instructions[i].mnemonic == "call";
        most = most.max(depths[i] + of_callee - if is_call { 0 } else { RETURN });
    }
    above.pop();
    found.insert(function.name.clone(), RETURN + most);
    Ok(RETURN + most)
}
