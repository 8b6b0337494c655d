//! A part of the comparison, small enough to run under valgrind: each slice is an allocation of exactly its size, and slices that a call only writes
//! are lent without a value. The first and the last seed may be given.
use comparison::case::Memory;
use comparison::groups::{GROUPS, Group, Tally, corrections, run};
use comparison::random::Random;
use comparison::{inputs, sheet_inputs};
use std::process::exit;

fn main() {
    let words: Vec<u64> = std::env::args().skip(1).map(|word| word.parse().expect("seeds are numbers")).collect();
    let (first, last) = match words[..] {
        [] => (1, 120),
        [first, last] => (first, last),
        _ => {
            eprintln!("usage: memory [FIRST LAST]");
            exit(2);
        }
    };
    let mut tally = Tally::default();
    let check = |outcome: Result<(), String>| {
        if let Err(fault) = outcome {
            eprintln!("{fault}");
            exit(1);
        }
    };
    for seed in first..=last {
        for group in GROUPS {
            // damage finds the most when it is tried often
            let times = if matches!(group, Group::Damaged | Group::Foreign) { 5 } else { 1 };
            for again in 0..times {
                let memory = if (seed + again).is_multiple_of(2) { Memory::Exact } else { Memory::Blank };
                check(run(group, seed + again * 1_000_000_007, memory, &mut tally));
            }
        }
    }
    // the largest sizes, once
    let random = &mut Random::new(first);
    for kind in 0..6 {
        let case = inputs::good(random, kind, 256, 512);
        check(case.compare(Memory::Blank).map(|_| ()));
    }
    check(corrections(random, 256, 3, 2, Memory::Exact, &mut tally));
    let text = sheet_inputs::longest_sheet(random, 256, 55);
    for report in [false, true] {
        let case = sheet_inputs::sheet_case(random, text.clone(), report);
        check(case.compare(Memory::Blank).map(|_| ()));
    }
    println!("seeds {first} to {last}: {} calls and the largest of each, none differs", tally.cases);
}
