//! The examples of document 01, through the binding.
use badrumello::{Index, KeptTable, Refusal, Resolve, Scores, character, report, tree};
use independent::{calls, sheets};

const TREE: [u16; 6] = [0, 5, 6, 6, 1, 5];
const MATRIX: [u16; 8] = [0, 0, 3, 1, 1, 1, 5, 0];

fn refused<T: std::fmt::Debug>(answer: Result<T, Refusal>) -> (u32, u32) {
    let refusal = answer.expect_err("a refusal");
    (refusal.number, refusal.place)
}

#[test]
fn the_report() {
    let sheet = b"taxa=4\ncharacters=2\nancestors=0,5,6,6,1,5\nrow=0,0\nrow=3,1\nrow=1,1\nrow=5,0\n";
    let lines = "taxa=4 characters=2 length=9 ci=6/9,667 ri=2/5,400 resolve=acctran \
        character=1 length=7 first=3-3,1-5 mpr=1-3,1-3 states=3,3 ci=5/7,714 ri=2/4,500 \
        character=2 length=2 first=1-1,0-1 mpr=0-1,0-1 states=1,1 ci=1/2,500 ri=0/1,0 ";
    assert_eq!(report(sheet), lines.replace(' ', "\n"));
}

#[test]
fn deltran_on_character_1() {
    assert_eq!(character(4, 2, 1, Resolve::Deltran, &TREE, &MATRIX).expect("an answer").states, [1, 1]);
}

#[test]
fn the_two_corrections() {
    let built = KeptTable::build(4, 2, TREE.into(), MATRIX.into()).expect("an answer");
    let mut table = built.clone();
    assert_eq!(table.correct(4, 1, 3), Ok(2));
    assert_eq!((&table.low()[..2], &table.high()[..2], &table.lengths()[..2]), (&[3, 1][..], &[3, 3][..], &[2, 2][..]));
    assert_eq!(table.character(1).expect("an answer").0, 5);

    let mut table = built.clone();
    assert_eq!(table.correct(1, 1, 4), Ok(0));
    assert_eq!((table.low(), table.high(), table.lengths()), (built.low(), built.high(), built.lengths()));
    assert_eq!(table.character(1).expect("an answer").0, 5);
}

#[test]
fn three_taxa_that_agree() {
    let scores = Scores { length: 0, m: 0, g: 0, ci: Index::None, ri: Index::None };
    assert_eq!(tree(3, 1, &[0, 4, 4, 1], &[2, 2, 2]), Ok(scores));
    assert_eq!(character(3, 1, 1, Resolve::Acctran, &[0, 4, 4, 1], &[2, 2, 2]).expect("an answer").scores, scores);
}

/// A comb: taxon 1 is the root, and each interior node has a taxon and the next interior node.
fn comb(n: usize) -> Vec<u16> {
    let mut table = vec![0; 2 * n - 2];
    for at in 0..n - 2 {
        table[at + 1] = (n + 1 + at) as u16;
        table[n + at] = if at == 0 { 1 } else { (n + at) as u16 };
    }
    table[n - 1] = 2 * n as u16 - 2;
    table
}

#[test]
fn limits() {
    for n in [3, 256] {
        assert_eq!(tree(n, 1, &comb(n), &vec![9999; n]).expect("an answer").length, 0);
    }
    for n in [2, 257] {
        assert_eq!(refused(tree(n, 1, &vec![0; 2 * n - 2], &vec![0; n])), (1, 0));
    }
    assert_eq!(refused(tree(3, 1, &comb(3), &[0, 10000, 0])), (7, 2));
}

#[test]
fn damaged_trees() {
    assert_eq!(refused(tree(4, 2, &[0, 1, 5, 6, 6, 5], &MATRIX)), (6, 3));
    assert_eq!(refused(tree(3, 1, &[0, 1, 4, 4], &[0, 0, 0])), (6, 3));
    assert_eq!(refused(tree(4, 2, &[0, 5, 5, 5, 1, 5], &MATRIX)), (5, 5));
}

/// The header, the binding and the independent implementation have the same numbers.
#[test]
fn constants() {
    let header = include_str!("../../../include/badrumello.h");
    let defined = |name: &str| {
        let line = header.lines().find_map(|line| line.strip_prefix(&format!("#define BADRUMELLO_{name} "))).expect("the header has it");
        line.split_whitespace().next().and_then(|word| word.parse::<usize>().ok()).expect("a number")
    };
    assert_eq!([defined("MIN_TAXA"), defined("MAX_TAXA")], [badrumello::MIN_TAXA, badrumello::MAX_TAXA]);
    assert_eq!([defined("MAX_CHARACTERS"), defined("MAX_STATE")], [badrumello::MAX_CHARACTERS, badrumello::MAX_STATE.into()]);
    assert_eq!([defined("MAX_STATE"), defined("MAX_KEPT_LENGTH")], [calls::HIGHEST_STATE.into(), calls::LONGEST_KEPT as usize]);
    for (name, binding, independent) in [
        ("MAX_SHEET_BYTES", badrumello::MAX_SHEET_BYTES, sheets::MOST_BYTES),
        ("SHEET_TREE", badrumello::SHEET_TREE, sheets::TREE_SLICE),
        ("SHEET_MATRIX", badrumello::SHEET_MATRIX, sheets::MATRIX_SLICE),
        ("REPORT_BYTES", badrumello::REPORT_BYTES, sheets::REPORT_SLICE),
    ] {
        assert_eq!([binding, independent], [defined(name); 2]);
    }
    assert_eq!(defined("STACK_BYTES"), 262_144, "the stack that the comparison gives each call");
}
