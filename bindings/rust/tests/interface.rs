//! The safe interface: what it refuses, in numbers and in words, and that nothing it is given makes it panic.
use badrumello::{KeptTable, MAX_SHEET_BYTES, REPORT_BYTES, Refusal, Resolve, SHEET_MATRIX, SHEET_TREE, Sheet, character, lent, report, tree};

const TREE: [u16; 6] = [0, 5, 6, 6, 1, 5];
const MATRIX: [u16; 8] = [0, 0, 3, 1, 1, 1, 5, 0];
const SHEET: &[u8] = b"taxa=4\ncharacters=2\nancestors=0,5,6,6,1,5\nrow=0,0\nrow=3,1\nrow=1,1\nrow=5,0\n";

/// A refusal and its words.
#[track_caller]
fn says<T: std::fmt::Debug>(answer: Result<T, Refusal>, number: u32, place: u32, words: &str) {
    let refusal = answer.expect_err("a refusal");
    assert_eq!(refusal, Refusal { number, place });
    assert_eq!(refusal.to_string(), format!("refusal {number} at {place}: {words}"));
    let error: Box<dyn std::error::Error> = refusal.into();
    assert!(error.source().is_none());
}

#[test]
fn every_refusal_in_words() {
    says(tree(2, 1, &[], &[]), 1, 0, "taxa must be 3 to 256 and characters 1 to 512");
    says(tree(4, 2, &TREE, &MATRIX[1..]), 2, 2, "slice 2 of the call has not exactly the length that is asked");
    says(tree(4, 2, &[5; 6], &MATRIX), 3, 0, "no entry of the tree table is 0, so there is no root");
    says(tree(4, 2, &[0; 6], &MATRIX), 3, 2, "the entry of node 2 is 0, but it is an interior node or another node is the root");
    says(tree(4, 2, &[0, 7, 6, 6, 1, 5], &MATRIX), 4, 2, "the entry of node 2 is no node, or names a taxon that is not the root");
    let words = "node 5 has the wrong number of descendants: one for the root, two for an interior node";
    says(tree(4, 2, &[0, 5, 5, 5, 1, 5], &MATRIX), 5, 5, words);
    says(tree(4, 2, &[0, 1, 5, 6, 6, 5], &MATRIX), 6, 3, "the ancestors of node 3 never reach the root");
    says(tree(4, 2, &TREE, &[10000; 8]), 7, 1, "the state in cell 1 of the matrix is above 9999");
    says(character(4, 2, 3, Resolve::Acctran, &TREE, &MATRIX), 8, 0, "there is no such taxon or character");
    let mut table = KeptTable::build(4, 2, TREE.into(), MATRIX.into()).expect("an answer");
    says(table.correct(1, 1, 10000), 9, 0, "the new state is above 9999");
    let answer = lent::kept_length(4, 2, &TREE, &MATRIX, &[5; 4], &[4; 4], &[0; 4]);
    says(answer, 10, 5, "the kept table's entry of node 5 is none: low above high, high above 9999 or length above 5089491");
    says(Sheet::read(b"taxa=4\n"), 11, 2, "line 2 of the sheet is not in form, or missing");
    says(Sheet::read(&[b'\n'; MAX_SHEET_BYTES + 1]), 12, 0, "the sheet has more than 32768 bytes");
}

#[test]
fn sizes_that_are_none() {
    for n in [0, 1, 2, 257, usize::MAX, usize::MAX / 2 + 2] {
        for c in [0, 1, 513, usize::MAX] {
            let refusal = Refusal { number: 1, place: 0 };
            assert_eq!(tree(n, c, &TREE, &MATRIX), Err(refusal));
            assert_eq!(character(n, c, 1, Resolve::Deltran, &TREE, &MATRIX), Err(refusal));
            assert_eq!(KeptTable::build(n, c, TREE.into(), MATRIX.into()), Err(refusal));
        }
    }
}

#[test]
fn slices_that_are_too_short_or_too_long() {
    let (mut words, mut longs) = ([0; 9], [0; 9]);
    let found = lent::Found {
        first_low: &mut [0; 2],
        first_high: &mut [0; 2],
        subtree: &mut longs,
        final_low: &mut [0; 2],
        final_high: &mut [0; 2],
        states: &mut words,
    };
    let answer = lent::character(4, 2, 1, Resolve::Acctran, &TREE, &MATRIX, found);
    assert_eq!(answer, Err(Refusal { number: 2, place: 5 }));
    let (mut tree, mut matrix) = ([9; SHEET_TREE], [9; SHEET_MATRIX]);
    assert_eq!(lent::read_sheet(SHEET, &mut tree[1..], &mut matrix), Err(Refusal { number: 2, place: 1 }));
    assert_eq!(lent::read_sheet(SHEET, &mut tree, &mut matrix[1..]), Err(Refusal { number: 2, place: 2 }));
    let mut out = vec![7; REPORT_BYTES + 1];
    assert_eq!(lent::report(SHEET, &mut out), Err(Refusal { number: 2, place: 1 }));
    assert_eq!(lent::report(SHEET, &mut []), Err(Refusal { number: 2, place: 1 }));
    assert!(out.iter().all(|&byte| byte == 7));
}

#[test]
fn what_is_past_the_used_entries_stays() {
    let (mut tree, mut matrix) = ([60_000; SHEET_TREE], [60_000; SHEET_MATRIX]);
    let head = lent::read_sheet(SHEET, &mut tree, &mut matrix).expect("an answer");
    assert_eq!((head.n, head.c, head.resolve), (4, 2, Resolve::Acctran));
    assert_eq!((&tree[..6], &matrix[..8]), (&TREE[..], &MATRIX[..]));
    assert!(tree[6..].iter().chain(&matrix[8..]).all(|&entry| entry == 60_000));
    let mut out = vec![7; REPORT_BYTES];
    let bytes = lent::report(SHEET, &mut out).expect("an answer");
    assert_eq!(out[..bytes], *report(SHEET).as_bytes());
    assert!(out[bytes..].iter().all(|&byte| byte == 7));
}

#[test]
fn a_kept_table_tells_what_it_holds() {
    let mut table = KeptTable::build(4, 2, TREE.into(), MATRIX.into()).expect("an answer");
    assert_eq!((table.taxa(), table.characters(), table.tree(), table.matrix()), (4, 2, &TREE[..], &MATRIX[..]));
    assert_eq!((table.state(4, 1), table.state(1, 2)), (Some(5), Some(0)));
    assert_eq!((table.state(0, 1), table.state(5, 1), table.state(1, 0), table.state(1, 3)), (None, None, None, None));
    assert_eq!((table.low(), table.high(), table.lengths()), (&[3, 1, 1, 0][..], &[3, 5, 1, 1][..], &[4, 4, 1, 1][..]));
    let before = table.clone();
    for (taxon, character, state, number) in [(0, 1, 1, 8), (5, 1, 1, 8), (1, 0, 1, 8), (1, 3, 1, 8), (1, 1, 10000, 9), (9, 1, 10000, 8)] {
        assert_eq!(table.correct(taxon, character, state), Err(Refusal { number, place: 0 }));
        assert_eq!(table, before);
    }
}
