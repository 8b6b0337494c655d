//! `longer SECONDS [SEED]`: all groups with one seed after another, for so many seconds or until something differs. With 0 seconds, the one seed alone.
use comparison::case::Memory;
use comparison::groups::{GROUPS, Tally, run};
use std::process::exit;
use std::time::{Duration, Instant};

fn main() {
    let mut words = std::env::args().skip(1).map(|word| word.parse::<u64>());
    let (Some(Ok(seconds)), seed, None) = (words.next(), words.next().unwrap_or(Ok(1_000_000)), words.next()) else {
        eprintln!("usage: longer SECONDS [SEED]");
        exit(2);
    };
    let Ok(first) = seed else {
        eprintln!("longer: the seed is a number");
        exit(2);
    };
    let began = Instant::now();
    let mut tally = Tally::default();
    let mut seed = first;
    loop {
        for group in GROUPS {
            if let Err(fault) = run(group, seed, Memory::Fenced, &mut tally) {
                eprintln!("{fault}\nagain: longer 0 {seed}");
                exit(1);
            }
        }
        seed += 1;
        if began.elapsed() >= Duration::from_secs(seconds) {
            break;
        }
    }
    for ((call, number, place), count) in &tally.seen {
        match (number, place) {
            (0, _) => println!("{call:<16} answered      {count:>9}"),
            (2, place) => println!("{call:<16} refused 2 at {place:<1} {count:>8}"),
            _ => println!("{call:<16} refused {number:<5} {count:>9}"),
        }
    }
    println!("seeds {first} to {}: {} calls compared, none differs", seed - 1, tally.cases);
}
