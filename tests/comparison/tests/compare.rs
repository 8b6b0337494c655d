//! Many thousands of cases with fixed seeds. A failure prints the group, the seed and the case; `cargo run --release --bin longer -- 0 SEED` runs that
//! seed again, and with more seconds it goes on from there.
use comparison::case::{Case, Memory};
use comparison::groups::{Group, Tally, corrections, run};
use comparison::random::Random;
use comparison::{inputs, sheet_inputs};

fn run_all(group: Group, seeds: std::ops::Range<u64>) -> Tally {
    let mut tally = Tally::default();
    for seed in seeds {
        if let Err(fault) = run(group, seed, Memory::Fenced, &mut tally) {
            panic!("{fault}");
        }
    }
    println!("{group:?}: {} calls", tally.cases);
    tally
}

/// The places of refusal 2, and the other refusals, of each call: all of them came up.
fn covers(tally: &Tally, call: &str, slices: u32, others: &[u32]) {
    assert!(tally.has(call, 0, 0), "{call} never answered");
    for slice in 1..=slices {
        assert!(tally.has(call, 2, slice), "{call} never refused 2 at {slice}");
    }
    for &number in others {
        assert!(tally.has(call, number, 0), "{call} never refused {number}");
    }
}

#[test]
fn good_trees_and_matrices() {
    run_all(Group::Good, 0..12_000);
}

#[test]
fn damaged_cases() {
    let tally = run_all(Group::Damaged, 0..300_000);
    covers(&tally, "character", 9, &[1, 3, 4, 5, 6, 7, 8]);
    covers(&tally, "tree", 3, &[1, 3, 4, 5, 6, 7]);
    covers(&tally, "build", 5, &[1, 3, 4, 5, 6, 7]);
    covers(&tally, "correct", 5, &[1, 3, 4, 5, 6, 7, 8, 9, 10]);
    covers(&tally, "kept_length", 5, &[1, 3, 4, 5, 6, 7, 10]);
    covers(&tally, "kept_character", 7, &[1, 3, 4, 5, 6, 7, 8, 10]);
}

#[test]
fn foreign_tables() {
    let tally = run_all(Group::Foreign, 0..40_000);
    for call in ["correct", "kept_length", "kept_character"] {
        assert!(tally.has(call, 0, 0) && tally.has(call, 10, 0), "{call} is not answered, or never refused 10");
    }
}

#[test]
fn corrections_one_after_another() {
    let tally = run_all(Group::Corrections, 0..2_500);
    assert!(tally.has("correct", 8, 0) && tally.has("correct", 9, 0));
}

#[test]
fn a_long_run_of_corrections() {
    for (seed, n, c, steps) in [(1, 9, 2, 6_000), (2, 40, 7, 1_000), (3, 256, 1, 300), (4, 3, 512, 200), (5, 256, 512, 12)] {
        let outcome = corrections(&mut Random::new(seed), n, c, steps, Memory::Fenced, &mut Tally::default());
        if let Err(fault) = outcome {
            panic!("long run, seed {seed}: {fault}");
        }
    }
}

#[test]
fn sheets_read_and_reported() {
    let tally = run_all(Group::Sheets, 0..12_000);
    covers(&tally, "read_sheet", 3, &[12, 11, 1]);
    covers(&tally, "report", 1, &[]);
    covers(&tally, "report says", 0, &[12, 11, 1, 3, 4, 5, 6, 7]);
}

#[test]
fn small_trees_by_every_way() {
    run_all(Group::Ways, 0..8_000);
}

/// The largest sizes, each call, both extreme shapes.
#[test]
fn the_largest_sizes() {
    for seed in 0..4 {
        let random = &mut Random::new(seed);
        for kind in 0..6 {
            let mut case = inputs::good(random, kind, 256, 512);
            if kind < 3 {
                case.lent.tree = inputs::shaped_tree(random, 256, seed as usize % 2);
            }
            if let Err(fault) = case.compare(Memory::Fenced) {
                panic!("largest, seed {seed}: {fault}");
            }
        }
    }
}

/// Sheets of exactly 32,768 bytes, and of one more.
#[test]
fn the_largest_sheets() {
    for (seed, n, c) in [(1, 256, 55), (2, 3, 512), (3, 30, 512), (4, 100, 150), (5, 64, 200)] {
        let random = &mut Random::new(seed);
        let mut text = sheet_inputs::longest_sheet(random, n, c);
        for report in [false, true] {
            let case = sheet_inputs::sheet_case(random, text.clone(), report);
            match case.compare(Memory::Fenced) {
                Ok((value, _)) => assert_eq!(value >> 32, 0, "a long sheet is refused, seed {seed}"),
                Err(fault) => panic!("long sheet, seed {seed}: {fault}"),
            }
        }
        text.resize(32_769, b'\n');
        for report in [false, true] {
            if let Err(fault) = sheet_inputs::sheet_case(random, text.clone(), report).compare(Memory::Fenced) {
                panic!("too long a sheet, seed {seed}: {fault}");
            }
        }
    }
}

/// Every call at its largest, on a thread that has just the stack that the header says.
#[test]
fn the_stack_that_the_header_says() {
    let random = &mut Random::new(1);
    let mut cases: Vec<Case> = (0..6).map(|kind| inputs::good(random, kind, 256, 512)).collect();
    let comb = inputs::shaped_tree(random, 256, 0);
    for (kind, case) in cases.iter_mut().enumerate() {
        let matrix = case.lent.matrix.clone();
        *case = inputs::around(random, kind, 256, 512, comb.clone(), matrix);
    }
    let text = sheet_inputs::longest_sheet(random, 256, 55);
    cases.push(sheet_inputs::sheet_case(random, text.clone(), false));
    cases.push(sheet_inputs::sheet_case(random, text, true));
    for case in cases {
        let name = case.call.name();
        let thread = std::thread::Builder::new().stack_size(262_144).spawn(move || case.library(Memory::Fenced)).expect("a thread starts");
        let (value, _) = thread.join().expect("the call returns").expect("nothing beside the slices is written");
        assert_eq!(value >> 32, 0, "{name} is refused");
    }
}

/// Calls from several threads, each on its own buffers.
#[test]
fn threads_do_not_disturb_each_other() {
    let threads: Vec<_> = (0..4)
        .map(|k| {
            std::thread::spawn(move || {
                for group in [Group::Good, Group::Corrections, Group::Damaged, Group::Sheets] {
                    run_all(group, 500_000 + k * 1000..500_000 + k * 1000 + 60);
                }
            })
        })
        .collect();
    for thread in threads {
        thread.join().expect("no thread finds a difference");
    }
}
