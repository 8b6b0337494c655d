//! Reads a sheet, builds a kept table, corrects cells, refused ones among them, and prints the report of the sheet as it then is.
//!
//!     cargo run --example table
use badrumello::{KeptTable, Refusal, Sheet, report};

const SHEET: &[u8] = b"taxa=4\ncharacters=2\nancestors=0,5,6,6,1,5\nrow=0,0\nrow=3,1\nrow=1,1\nrow=5,0\n";

/// One correction, and what it changes.
fn correct(table: &mut KeptTable, taxon: usize, character: usize, state: u16) -> Result<(), Refusal> {
    print!("taxon {taxon}, character {character} becomes {state}: ");
    let count = match table.correct(taxon, character, state) {
        Ok(count) => count,
        Err(Refusal { number, place }) => {
            println!("refused={number},{place}");
            return Ok(());
        }
    };
    let (length, last) = table.character(character)?;
    println!("{count} interior nodes");
    print!("  length of the tree {}, of the character {length}; final ranges", table.length());
    for range in last.iter() {
        print!(" {}-{}", range.start(), range.end());
    }
    println!();
    Ok(())
}

fn numbers(list: &[u16]) -> String {
    list.iter().map(u16::to_string).collect::<Vec<_>>().join(",")
}

/// The corrected matrix as a sheet.
fn write_sheet(table: &KeptTable) -> String {
    let mut text = format!("taxa={}\ncharacters={}\nancestors={}\n", table.taxa(), table.characters(), numbers(table.tree()));
    for row in table.matrix().chunks(table.characters()) {
        text += &format!("row={}\n", numbers(row));
    }
    text + "resolve=deltran\n"
}

fn main() -> Result<(), Refusal> {
    let Sheet { n, c, tree, matrix, .. } = Sheet::read(SHEET)?;
    let mut table = KeptTable::build(n, c, tree, matrix)?;
    println!("{n} taxa, {c} characters, length of the tree {}", table.length());

    correct(&mut table, 4, 1, 3)?; // two interior nodes stand between taxon 4 and the root
    correct(&mut table, 1, 1, 4)?; // taxon 1 is the root: no entry changes, and yet the length does
    correct(&mut table, 2, 2, 10000)?; // no state
    correct(&mut table, 5, 1, 0)?; // no taxon
    correct(&mut table, 3, 2, 0)?;

    print!("{}", report(write_sheet(&table).as_bytes()));
    Ok(())
}
