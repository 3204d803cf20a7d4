//! What the compiler made of the library: its calls, its stack, and the frame that is probed in a loop. A
//! proof ends at the language's own machine, so these look at libstation.a itself, every time.
//!
//! Beside each check stand a few planted lines of machine code that it must refuse.

use station_tests::machine_code::listing::Listing;
use station_tests::machine_code::{calls, of_library, of_program, probes, stack};
use station_tests::read;
use std::collections::BTreeMap;

/// A match on lent buffers and a check take fewer bytes than this.
const LIMIT: u64 = 2_048;
const LIMITED: [&str; 2] = ["station_lent", "station_check"];

const ENTRIES: [&str; 5] = [
    "station_match",
    "station_lent",
    "station_check",
    "station_write",
    "station_read",
];

/// Functions as objdump would list them, each instruction at the next address. `-> g` names g.
fn planted(functions: &[(&str, &[&str])]) -> Listing {
    let mut text = String::new();
    for (name, instructions) in functions {
        text.push_str(&format!("0000000000000000 <{name}>:\n"));
        for (at, instruction) in instructions.iter().enumerate() {
            let line = match instruction.split_once(" -> ") {
                Some((own, named)) => format!("{own}\t{at:x}: R_X86_64_PLT32\t{named}-0x4"),
                None => instruction.to_string(),
            };
            text.push_str(&format!("   {at:x}:\t{line}\n"));
        }
    }
    Listing::of(&text, "")
}

/// What a planted function's stack comes to.
fn stack_of(instructions: &[&str]) -> Result<u64, String> {
    let most = stack::most(&planted(&[("f", instructions)]))?;
    Ok(most["f"])
}

// ---- calls

#[test]
fn no_call_through_a_register() {
    let library = of_library();
    for entry in ENTRIES {
        assert!(library.function(entry).is_some(), "{entry} is not there");
    }
    assert_eq!(calls::through_a_register(&library), Vec::<String>::new());
    // Whatever else it called would have to be looked at too.
    let outside: Vec<String> = calls::outside(&library).into_iter().collect();
    println!("called outside the library: {outside:?}");
    assert_eq!(outside, ["memset"]);
}

#[test]
fn a_call_through_a_register_is_seen() {
    for call in [
        "call *%rax",
        "call *0x8(%rip)",
        "lcall *(%rdi)",
        "jmp *%rax",
    ] {
        let library = planted(&[("f", &["xor %eax,%eax", call, "ret"])]);
        assert_eq!(calls::through_a_register(&library), ["f: 1"]);
    }
    let jump = stack_of(&["xor %eax,%eax", "nop", "jmp *%rax"]);
    let told = "f: 2: a jump through a register, and not by a table";
    assert_eq!(jump, Err(told.to_string()));
}

/// A function that jumps by a table of two entries, of which the second is given.
fn by_a_table(second: &str) -> Listing {
    jumps_after(&["movslq (%rsi,%rdi,4),%rax", "add %rsi,%rax"], second)
}

/// The same, with what stands between the table's address and the jump.
fn jumps_after(between: &[&str], second: &str) -> Listing {
    let address = "lea 0x0(%rip),%rsi\t0: R_X86_64_PC32\t.rodata.f-0x4";
    let ends = ["jmp *%rax", "ret", "ret"];
    let mut code = "0000000000000000 <f>:\n".to_string();
    for (at, line) in [&[address], between, &ends].concat().iter().enumerate() {
        code.push_str(&format!("   {at:x}:\t{line}\n"));
    }
    let first = between.len() + 2;
    let entries = format!(
        "RELOCATION RECORDS FOR [.rodata.f]:
OFFSET           TYPE              VALUE
0000000000000000 R_X86_64_PC32     .text.f+0x{first:016x}
0000000000000004 R_X86_64_PC32     {second}
"
    );
    Listing::of(&code, &entries)
}

/// An entry counts from the table, and its relocation from the entry itself.
#[test]
fn a_jump_by_a_table_stays_in_its_function() {
    let inside = by_a_table(".text.f+0x0000000000000009");
    assert_eq!(inside.functions[0].tables, [[4, 5]]);
    assert_eq!(calls::through_a_register(&inside), Vec::<String>::new());
    for outside in [".text.f+0x000000000000000a", ".text.g+0x0000000000000009"] {
        let library = by_a_table(outside);
        assert_eq!(calls::through_a_register(&library), ["f: 3"]);
        assert!(stack::most(&library).is_err());
    }
}

/// A copy into another register leaves the sum as it is; one into the jump's own, whole or in part, does not.
#[test]
fn what_stands_before_a_jump_by_a_table() {
    let read = ["movslq (%rsi,%rdi,4),%rax", "add %rsi,%rax"];
    let second = ".text.f+0x000000000000000a";
    let copied = |copy| jumps_after(&[read[0], read[1], copy], second);
    for copy in ["mov %rdi,%rdx", "mov 0x40(%rsp),%rbp"] {
        let library = copied(copy);
        assert_eq!(library.functions[0].tables, [[5, 6]]);
        assert_eq!(calls::through_a_register(&library), Vec::<String>::new());
    }
    for other in [
        "mov %rdi,%rax",
        "mov %edi,%eax",
        "mov %edi,%r8d",
        "mov (%rdi),%rdx",
        "mov 0x40(%rsp),%rax",
        "inc %rax",
    ] {
        assert_eq!(
            calls::through_a_register(&copied(other)),
            ["f: 4"],
            "{other}"
        );
    }
}

#[test]
fn no_function_reaches_itself() {
    let library = of_library();
    println!("{} functions", library.functions.len());
    assert_eq!(calls::reach_themselves(&library), Vec::<String>::new());
}

#[test]
fn a_function_that_reaches_itself_is_seen() {
    let by_itself = planted(&[("f", &["call -> f", "ret"])]);
    assert_eq!(calls::reach_themselves(&by_itself), ["f"]);
    let by_another = planted(&[
        ("e", &["call -> f", "ret"]),
        ("f", &["call -> .text.g", "ret"]),
        // the last act of g is a jump to f, which is a call too
        ("g", &["jmp -> f"]),
    ]);
    assert_eq!(calls::reach_themselves(&by_another), ["f", "g"]);
    assert!(stack::most(&by_another).is_err());
    let linked = planted(&[("f", &["xor %eax,%eax", "call 0 <f>", "ret"])]);
    assert_eq!(calls::reach_themselves(&linked), ["f"]);
}

// ---- stack

/// The bytes of stack that docs/HOST.md names for each entry.
fn named_for_hosts() -> BTreeMap<String, u64> {
    let mut found = BTreeMap::new();
    for line in read("docs/HOST.md").lines() {
        let cells: Vec<&str> = line.split('|').map(str::trim).collect();
        if let ["", entry, bytes, ""] = cells[..] {
            if entry.starts_with("station_") {
                let bytes = bytes.replace(',', "").parse();
                found.insert(entry.to_string(), bytes.expect("a number of bytes"));
            }
        }
    }
    found
}

fn over_the_limit(most: &BTreeMap<String, u64>) -> Vec<&str> {
    let over = LIMITED.iter().filter(|&&entry| most[entry] >= LIMIT);
    over.copied().collect()
}

#[test]
fn stack_of_each_entry() {
    let most = stack::most(&of_library()).unwrap_or_else(|why| panic!("{why}"));
    println!("stack by the machine code, in bytes; memset of the C library by its return alone");
    for entry in ENTRIES {
        println!("  {entry:13} {:6}", most[entry]);
    }
    let named = named_for_hosts();
    for entry in ENTRIES {
        let in_page = named.get(entry);
        assert_eq!(in_page, Some(&most[entry]), "docs/HOST.md on {entry}");
    }
    assert_eq!(over_the_limit(&most), Vec::<&str>::new());
}

#[test]
fn the_stack_of_planted_functions() {
    assert_eq!(stack_of(&["ret"]), Ok(8));
    let framed = [
        "push %rbx",
        "sub $0x20,%rsp",
        "add $0x20,%rsp",
        "pop %rbx",
        "ret",
    ];
    assert_eq!(stack_of(&framed), Ok(8 + 8 + 32));
    let sent = ["push 0x20(%rsp)", "pop %rax", "popcnt %rax,%rax", "ret"];
    assert_eq!(stack_of(&sent), Ok(8 + 8));
    let lent = [
        "push %rax",
        "mov %rsp,%rdi",
        "call -> memset",
        "pop %rax",
        "ret",
    ];
    assert_eq!(stack_of(&lent), Ok(8 + 8 + 8));
    // what lies below the stack pointer is used where nothing is called
    assert_eq!(stack_of(&["mov %rdi,-0x18(%rsp)", "ret"]), Ok(8 + 24));
    // only one of two ways has a frame
    let two_ways = [
        "je 4",
        "sub $0x40,%rsp",
        "call -> memset",
        "add $0x40,%rsp",
        "ret",
    ];
    assert_eq!(stack_of(&two_ways), Ok(8 + 64 + 8));
    let probed = [
        "push %rbx",
        "mov %rsp,%r11",
        "sub $0x3000,%r11",
        "sub $0x1000,%rsp",
        "movq $0x0,(%rsp)",
        "cmp %r11,%rsp",
        "jne 3",
        "sub $0x10,%rsp",
        "add $0x3010,%rsp",
        "pop %rbx",
        "ret",
    ];
    assert_eq!(stack_of(&probed), Ok(8 + 8 + 0x3010));
    let library = planted(&[
        (
            "f",
            &["push %rbx", "call -> .text.g", "pop %rbx", "jmp -> g"],
        ),
        ("g", &["push %rax", "pop %rax", "ret"]),
    ]);
    assert_eq!(stack::most(&library).map(|most| most["f"]), Ok(8 + 8 + 16));
}

#[test]
fn a_stack_over_the_limit_is_seen() {
    let large = ["sub $0x7f8,%rsp", "add $0x7f8,%rsp", "ret"];
    let small = ["sub $0x7f0,%rsp", "add $0x7f0,%rsp", "ret"];
    let most = |of_check: &[&str]| {
        let library = planted(&[("station_lent", &small), ("station_check", of_check)]);
        stack::most(&library).unwrap_or_else(|why| panic!("{why}"))
    };
    assert_eq!(over_the_limit(&most(&small)), Vec::<&str>::new());
    assert_eq!(over_the_limit(&most(&large)), ["station_check"]);
}

#[test]
fn a_stack_that_cannot_be_told_is_refused() {
    let refused: [&[&str]; 10] = [
        // the pointer comes from elsewhere, or moves by what no one knows
        &["mov %rbp,%rsp", "ret"],
        &["and $0xfffffffffffffff0,%rsp", "ret"],
        &["sub %rax,%rsp", "ret"],
        &["leave", "ret"],
        &["pushf", "popf", "ret"],
        // the frame grows with each turn, or is there still at the end
        &["push %rax", "jne 0", "ret"],
        &["push %rax", "ret"],
        &["push %rax", "jmp -> g"],
        // what lies below the pointer, by a number that is not known
        &["mov %rdi,-0x80(%rsp,%rax,8)", "ret"],
        // code to which nothing leads
        &["ret", "push %rax", "ret"],
    ];
    for instructions in refused {
        assert!(stack_of(instructions).is_err(), "{instructions:?}");
    }
}

// ---- the frame that is probed in a loop

/// A frame that grows in the middle, as in the start-up code of a program.
const GROWTH: [&str; 9] = [
    "mov %rsp,%rsi",
    "sub $0x90,%rsi",
    "cmp %rsp,%rsi",
    "jge 9",
    "xorq $0x0,(%rsp)",
    "sub $0xc00,%rsp",
    "cmp %rsp,%rsi",
    "jl 5",
    "mov %rsi,%rsp",
];

const PROBE: [&str; 6] = [
    "mov %rsp,%r11",
    "sub $0x9000,%r11",
    "sub $0x1000,%rsp",
    "movq $0x0,(%rsp)",
    "cmp %r11,%rsp",
    "jne 4",
];

/// What is said of a function whose probe stands behind two instructions.
fn probed_behind(first: [&str; 2], after: &[&str]) -> Option<String> {
    let all = [&first[..], &PROBE[..], after].concat();
    probes::misplaced(&planted(&[("f", &all)]).functions[0])
}

#[test]
fn frames_are_probed_before_anything_is_tested() {
    // The two programs are compiled in the same way, and have large rows too.
    let all = [of_library(), of_program("listing"), of_program("again")];
    for function in all.iter().flat_map(|listing| &listing.functions) {
        let places = 0..function.instructions.len();
        for probe in places.filter_map(|i| probes::probed(function, i)) {
            println!("{}: {probe} bytes are probed in a loop", function.name);
        }
        assert_eq!(probes::misplaced(function), None);
    }
}

#[test]
fn a_frame_that_grows_is_told_apart() {
    let told = |k: usize, other: &'static str| {
        let mut all = vec!["je 10"];
        all.extend(GROWTH);
        all.push("leave");
        all.push("ret");
        all[1 + k] = other;
        let listing = planted(&[("f", &all)]);
        // the stack of it is not known
        assert!(stack::most(&listing).is_err());
        probes::misplaced(&listing.functions[0])
    };
    assert_eq!(told(0, GROWTH[0]), None);
    for (k, other) in [
        (0, "mov %rsp,%rdi"),
        (1, "sub $0x90,%rdi"),
        (1, "sub %rax,%rsi"),
        (3, "jge 8"),
        (4, "nop"),
        (5, "sub $0x2000,%rsp"),
        (5, "sub %rax,%rsp"),
        (7, "jl 6"),
        (8, "mov %rdi,%rsp"),
    ] {
        let not_understood = "a frame is made in a way that is not understood";
        let wrong = told(k, other);
        assert!(
            wrong
                .as_deref()
                .map_or(false, |w| w.ends_with(not_understood)),
            "{other}"
        );
    }
}

#[test]
fn a_frame_that_is_probed_behind_a_test_is_seen() {
    let pushed = ["push %rbp", "push %rbx"];
    assert_eq!(probed_behind(pushed, &["ret"]), None);
    let tested = probed_behind(["cmp $0x9,%rdi", "jb 8"], &["ret"]);
    let told = "f: 2: a frame is probed behind cmp $0x9,%rdi";
    assert_eq!(tested, Some(told.to_string()));
    let moved = probed_behind(["push %rbx", "mov %rdi,%r11"], &["ret"]);
    assert!(moved.is_some());
    // steps of less than a page touch every page, and larger ones do not
    let by_steps = |size, step| {
        let size = format!("sub {size},%r11");
        let step = format!("sub {step},%rsp");
        let probe = [PROBE[0], &size, &step, PROBE[3], PROBE[4], "jne 2"];
        let all = [&probe[..], &["ret"]].concat();
        let listing = planted(&[("f", &all)]);
        let function = &listing.functions[0];
        (probes::probed(function, 0), probes::misplaced(function))
    };
    assert_eq!(by_steps("$0x9000", "$0xc00"), (Some(0x9000), None));
    for (size, step) in [("$0xa000", "$0x2000"), ("$0x9000", "$0xd00")] {
        let (size, told) = by_steps(size, step);
        assert!(size.is_none() && told.is_some());
    }
    let unlike = ["mov %rsp,%rax", "cmp %rax,%rsp", "ret"];
    let unlike = probes::misplaced(&planted(&[("f", &unlike)]).functions[0]);
    let told = "f: 1: a frame is made in a way that is not understood";
    assert_eq!(unlike, Some(told.to_string()));
    // a way back to it from behind
    let again = probed_behind(pushed, &["je 2", "ret"]);
    let told = "f: 2: a jump leads to where a frame is probed";
    assert_eq!(again, Some(told.to_string()));
}
