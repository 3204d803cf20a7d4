//! A frame of many pages is made step by step in a loop, so that each page is touched. The loop keeps its
//! end in a register that the compiler's back end takes for free. Where the frame is made at the very start
//! it is free; where tests stand before it, it may hold a value of theirs, which is then lost.

use super::listing::{Function, Instruction};

/// A page. Each step of the loop makes and touches as much, or less.
const PAGE: u64 = 0x1000;

/// How many instructions the loop has, with the two before it that find its end.
pub const LENGTH: usize = 6;

pub fn number(operand: &str) -> Option<u64> {
    u64::from_str_radix(operand.strip_prefix("$0x")?, 16).ok()
}

/// The bytes by which a loop from here on makes the frame larger, if it is such a loop.
pub fn probed(function: &Function, i: usize) -> Option<u64> {
    let all = function.instructions.get(i..i + LENGTH)?;
    let is = |k: usize, mnemonic: &str, operands: [&str; 2]| {
        let instruction: &Instruction = &all[k];
        instruction.mnemonic == mnemonic && instruction.operands == operands
    };
    let step = number(all[2].operands.first()?)?;
    let by_step = format!("$0x{step:x}");
    let end = all[0].operands.get(1)?.as_str();
    let size = number(all[1].operands.first()?)?;
    let by_size = format!("$0x{size:x}");
    let looks_so = is(0, "mov", ["%rsp", end])
        && is(1, "sub", [&by_size, end])
        && is(2, "sub", [&by_step, "%rsp"])
        && is(3, "movq", ["$0x0", "(%rsp)"])
        && is(4, "cmp", [end, "%rsp"])
        && all[5].mnemonic == "jne"
        && all[5].leads_to() == Some(all[2].at);
    let reaches = step > 0 && step <= PAGE && size > 0 && size % step == 0;
    (looks_so && reaches).then_some(size)
}

/// How many instructions a frame has that grows in the middle of a function.
pub const GROWTH: usize = 9;

/// Whether a frame grows from here on by a size that is known only there, as in the start-up code that the
/// kit puts before a program: it tells so where the processor is too old. The loop's end is in a register
/// that was chosen for it as for any other value, so that nothing is lost.
pub fn grows(function: &Function, i: usize) -> bool {
    let all = match function.instructions.get(i..i + GROWTH) {
        Some(all) => all,
        None => return false,
    };
    let is = |k: usize, mnemonic: &str, operands: [&str; 2]| {
        let instruction: &Instruction = &all[k];
        instruction.mnemonic == mnemonic && instruction.operands == operands
    };
    let leads = |k: usize, mnemonic: &str, to: usize| {
        all[k].mnemonic == mnemonic && all[k].leads_to() == Some(all[to].at)
    };
    let second = |k: usize| all[k].operands.get(1).map_or("", String::as_str);
    let by = |k: usize| all[k].operands.first().and_then(|o| number(o));
    let end = second(0);
    let step = by(5).unwrap_or(0);
    is(0, "mov", ["%rsp", end])
        && end.starts_with("%r")
        && end != "%rsp"
        && all[1].mnemonic == "sub"
        && by(1).is_some()
        && second(1) == end
        && is(2, "cmp", ["%rsp", end])
        && leads(3, "jge", 8)
        && is(4, "xorq", ["$0x0", "(%rsp)"])
        && all[5].mnemonic == "sub"
        && second(5) == "%rsp"
        && (1..=PAGE).contains(&step)
        && is(6, "cmp", ["%rsp", end])
        && leads(7, "jl", 4)
        && is(8, "mov", [end, "%rsp"])
}

fn compares_the_stack_pointer(instruction: &Instruction) -> bool {
    instruction.mnemonic.starts_with("cmp") && instruction.operands.iter().any(|o| o == "%rsp")
}

/// What is wrong with the loops of a function: each must stand behind nothing but registers that are saved,
/// and be reached from there alone.
pub fn misplaced(function: &Function) -> Option<String> {
    let all = &function.instructions;
    let told_at = |i: usize, what: &str| format!("{}: {:x}: {what}", function.name, all[i].at);
    let places: Vec<usize> = (0..all.len())
        .filter(|&i| probed(function, i).is_some())
        .collect();
    let growths: Vec<usize> = (0..all.len()).filter(|&i| grows(function, i)).collect();
    // Nothing but such loops compares the stack pointer.
    for i in (0..all.len()).filter(|&i| compares_the_stack_pointer(&all[i])) {
        let grown = growths.iter().any(|&k| i == k + 2 || i == k + 6);
        if !grown && !places.iter().any(|&k| i == k + 4) {
            return Some(told_at(
                i,
                "a frame is made in a way that is not understood",
            ));
        }
    }
    for i in places {
        let told = |what: &str| Some(told_at(i, what));
        if let Some(before) = all[..i].iter().find(|other| other.mnemonic != "push") {
            return told(&format!("a frame is probed behind {}", before.text()));
        }
        let own = all[i + LENGTH - 1].at;
        let inside = |at: u64| at >= all[0].at && at <= own;
        let others = all
            .iter()
            .filter(|other| other.is_jump() && other.at != own);
        let by_jumps = others.filter_map(Instruction::leads_to);
        let by_tables = function.tables.iter().flatten().copied();
        if by_jumps.chain(by_tables).any(inside) {
            return told("a jump leads to where a frame is probed");
        }
    }
    None
}
