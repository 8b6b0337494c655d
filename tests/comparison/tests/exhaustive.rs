//! All cases of small kinds: every table of three and four taxa, every tree of up to five, every byte of a sheet changed.
use comparison::case::{Buffers, Call, Case, Memory};
use comparison::groups::{Tally, every_way};
use comparison::random::Random;
use comparison::sheet_inputs;
use independent::trees::Tree;

/// The numbers of `digits` places to a base, one after another.
fn count_up(digits: &mut [u16], highest: u16) -> bool {
    for digit in digits {
        if *digit < highest {
            *digit += 1;
            return true;
        }
        *digit = 0;
    }
    false
}

fn compare(case: &Case) -> u64 {
    match case.compare(Memory::Fenced) {
        Ok((value, _)) => value,
        Err(fault) => panic!("{fault}"),
    }
}

/// Every table of 2n-2 entries from 0 to 2n-1: one of each kind that is no entry, too.
fn every_table(n: usize) -> [usize; 7] {
    let mut refused = [0; 7];
    let lent = Buffers { tree: vec![0; 2 * n - 2], matrix: (0..n as u16).collect(), result: vec![77; 7], ..Buffers::default() };
    let mut case = Case { call: Call::Tree { n: n as u64, c: 1 }, lent };
    loop {
        let value = compare(&case);
        refused[(value >> 32) as usize] += 1;
        if !count_up(&mut case.lent.tree, 2 * n as u16 - 1) {
            return refused;
        }
    }
}

#[test]
fn every_table_of_three_taxa() {
    let refused = every_table(3);
    assert_eq!(refused[0], 3, "there are three trees of three taxa, by the root");
    assert!(refused[3..].iter().all(|&count| count > 0), "{refused:?}");
}

#[test]
fn every_table_of_four_taxa() {
    let refused = every_table(4);
    // four roots, three ways to part the others, two numberings
    assert_eq!(refused[0], 24);
    assert!(refused[3..].iter().all(|&count| count > 0), "{refused:?}");
}

/// The accepted trees of n taxa.
fn trees(n: usize) -> Vec<Vec<u16>> {
    let mut trees = Vec::new();
    for root in 0..n {
        // each other node has an interior ancestor, or, below the root, the root: 0 stands for it
        let mut choices = vec![0; 2 * n - 3];
        loop {
            let mut table: Vec<u16> =
                choices.iter().map(|&choice| if choice == 0 { root as u16 + 1 } else { (n + choice as usize) as u16 }).collect();
            table.insert(root, 0);
            if Tree::accept(n, &table).is_ok() {
                trees.push(table);
            }
            if !count_up(&mut choices, n as u16 - 2) {
                break;
            }
        }
    }
    trees
}

#[test]
fn every_tree_of_up_to_five_taxa_by_every_way() {
    for (n, number) in [(3, 3), (4, 24), (5, 5 * 15 * 6)] {
        let trees = trees(n);
        assert_eq!(trees.len(), number);
        let mut random = Random::new(n as u64);
        for (k, tree) in trees.iter().enumerate() {
            // all matrices of one character with states 0 to 2; of five taxa a third of them for each tree
            let mut states = vec![0; n];
            let mut at = 0;
            loop {
                let chosen = n < 5 || at % 3 == k % 3;
                if chosen && let Err(fault) = every_way(&mut random, n, 1, tree, &states, Memory::Fenced, &mut Tally::default()) {
                    panic!("{fault}");
                }
                at += 1;
                if !count_up(&mut states, 2) {
                    break;
                }
            }
        }
    }
}

const SHEET: &[u8] = b"taxa=4\ncharacters=2\nancestors=0,5,6,6,1,5\nrow=0,0\nrow=3,1\nrow=1,1\nrow=5,0\nresolve=deltran\n";

/// The sheet with each byte gone, each byte another, another byte before each, and cut off before each.
#[test]
fn every_byte_of_a_sheet() {
    let random = &mut Random::new(7);
    let mut read = |text: Vec<u8>| compare(&sheet_inputs::sheet_case(random, text, false)) >> 32;
    let mut answered = 0;
    for at in 0..=SHEET.len() {
        read(SHEET[..at].to_vec());
        if at < SHEET.len() {
            let mut text = SHEET.to_vec();
            text.remove(at);
            read(text);
        }
        for byte in 0..=255 {
            if at < SHEET.len() {
                let mut text = SHEET.to_vec();
                text[at] = byte;
                answered += usize::from(read(text) == 0);
            }
            let mut text = SHEET.to_vec();
            text.insert(at, byte);
            answered += usize::from(read(text) == 0);
        }
    }
    assert!(answered > 200, "numbers can be changed within the form");
}

#[test]
fn reports_of_a_sheet_with_a_byte_changed() {
    let random = &mut Random::new(8);
    for at in 0..SHEET.len() {
        for &byte in b"\n,=019 -r" {
            let mut text = SHEET.to_vec();
            text[at] = byte;
            compare(&sheet_inputs::sheet_case(random, text, true));
        }
    }
}
