//! Which functions a function calls, or jumps to as its last act.

use super::flow::{leaves, next};
use super::listing::{Function, Listing};
use std::collections::BTreeSet;

/// By instruction, the function that it goes to.
pub fn called(function: &Function) -> Vec<(usize, String)> {
    let all = function.instructions.iter().enumerate();
    let goes = all.filter(|(_, i)| (i.mnemonic == "call" || i.is_jump()) && !i.is_indirect());
    goes.filter_map(|(at, i)| Some((at, leaves(function, i)?)))
        .collect()
}

/// The calls that go where a register or a place in memory says, and the jumps that do so and take no entry
/// of a table of their own function.
pub fn through_a_register(listing: &Listing) -> Vec<String> {
    let mut found = Vec::new();
    for function in &listing.functions {
        for (i, instruction) in function.instructions.iter().enumerate() {
            let is_call = instruction.mnemonic.contains("call");
            let indirect = instruction.is_indirect() || instruction.mnemonic == "lcall";
            let by_a_table = !is_call && next(function, i).is_ok();
            if (is_call || instruction.is_jump()) && indirect && !by_a_table {
                found.push(format!("{}: {:x}", function.name, instruction.at));
            }
        }
    }
    found
}

/// What the library calls and does not hold.
pub fn outside(listing: &Listing) -> BTreeSet<String> {
    let all = listing.functions.iter().flat_map(called);
    all.map(|(_, name)| name)
        .filter(|name| listing.function(name).is_none())
        .collect()
}

/// The functions that reach themselves by calls.
pub fn reach_themselves(listing: &Listing) -> Vec<String> {
    let reaches = |function: &&Function| {
        let mut reached = BTreeSet::new();
        let mut open = vec![*function];
        while let Some(next) = open.pop() {
            for (_, name) in called(next) {
                if let (true, Some(callee)) =
                    (reached.insert(name.clone()), listing.function(&name))
                {
                    open.push(callee);
                }
            }
        }
        reached.contains(&function.name)
    };
    let all = listing.functions.iter().filter(reaches);
    all.map(|function| function.name.clone()).collect()
}
