//! Scores document 01's sample: the tree, then each character with both reconstructions; and shows a refusal.
//!
//!     cargo run --example score
use badrumello::{Character, Index, Refusal, Resolve, Scores, character, tree};

const TAXA: usize = 4;
const CHARACTERS: usize = 2;

fn index(index: Index) -> String {
    match index {
        Index::None => "none".to_string(),
        Index::Fraction { over, under } => format!("{over}/{under}"),
    }
}

fn put_scores(scores: &Scores) {
    println!("length={} ci={} ri={}", scores.length, index(scores.ci), index(scores.ri));
}

fn main() -> Result<(), Refusal> {
    let ancestors = [0, 5, 6, 6, 1, 5];
    let matrix = [0, 0, 3, 1, 1, 1, 5, 0];
    print!("tree: ");
    put_scores(&tree(TAXA, CHARACTERS, &ancestors, &matrix)?);

    for number in 1..=CHARACTERS {
        for (name, resolve) in [("acctran", Resolve::Acctran), ("deltran", Resolve::Deltran)] {
            let Character { scores, first, subtree, last, states } = character(TAXA, CHARACTERS, number, resolve, &ancestors, &matrix)?;
            print!("character {number}, {name}: ");
            put_scores(&scores);
            for (k, (first, last)) in first.iter().zip(last.iter()).enumerate() {
                let (node, state, length) = (TAXA + 1 + k, states[k], subtree[k]);
                print!("  node {node}: first {}-{}, final {}-{}, ", first.start(), first.end(), last.start(), last.end());
                println!("state {state}, least length below {length}");
            }
        }
    }

    // one interior node has three descendants, another none: refused, and nothing has been changed
    let damaged = [0, 5, 5, 5, 1, 5];
    if let Err(Refusal { number, place }) = tree(TAXA, CHARACTERS, &damaged, &matrix) {
        println!("refused={number},{place}");
    }
    Ok(())
}
