//! Scores evolutionary trees under Wagner parsimony (ordered, freely reversible characters), after Swofford and Maddison (1987): a safe interface to
//! the library Badrumello, every function of which is proved.
//!
//! A tree table has 2n-2 entries for n taxa, 3 to 256: the ancestor of each node, 0 for the root, which is a taxon. A matrix has n rows of c states,
//! 0 to 9999, for c characters, 1 to 512. Taxa, characters and nodes are counted from 1; interior nodes are n+1 to 2n-2.
//!
//! ```
//! use badrumello::{character, report, tree, Index, Resolve};
//!
//! let ancestors = [0, 5, 6, 6, 1, 5];
//! let matrix = [0, 0, 3, 1, 1, 1, 5, 0];
//!
//! let scores = tree(4, 2, &ancestors, &matrix)?;
//! assert_eq!(scores.length, 9);
//! assert_eq!(scores.ci, Index::Fraction { over: 6, under: 9 });
//!
//! let first = character(4, 2, 1, Resolve::Acctran, &ancestors, &matrix)?;
//! assert_eq!(first.scores.length, 7);
//! assert_eq!(first.last.iter().collect::<Vec<_>>(), [1..=3, 1..=3]);
//! assert_eq!(first.states, [3, 3]);
//!
//! let refusal = tree(4, 2, &[0, 5, 5, 5, 1, 5], &matrix).unwrap_err();
//! assert_eq!((refusal.number, refusal.place), (5, 5));
//!
//! assert_eq!(report(b"taxa=2\ncharacters=1\n"), "refused=1,0\n");
//! # Ok::<(), badrumello::Refusal>(())
//! ```
//!
//! The calls on this page own what they answer. [`lent`] has the same calls over slices that you lend, [`raw`] the C functions themselves.
//! [`KeptTable`] keeps a table while cells are corrected.
//!
//! # Linking
//!
//! The build script looks for the static library in the folder that the environment variable `BADRUMELLO_LIB_DIR` names (after `./install PREFIX`
//! that is `PREFIX/lib`), or else where `rt lib` in `crates/editions` leaves it.
#![deny(missing_docs)]
#![deny(unsafe_op_in_unsafe_fn)]

mod answers;
mod kept;
pub mod lent;
pub mod raw;
mod refusal;

pub use answers::{Index, Ranges, Resolve, Scores};
pub use kept::KeptTable;
pub use refusal::Refusal;

/// The fewest taxa.
pub const MIN_TAXA: usize = 3;
/// The most taxa.
pub const MAX_TAXA: usize = 256;
/// The most characters; there is at least one.
pub const MAX_CHARACTERS: usize = 512;
/// The highest state.
pub const MAX_STATE: u16 = 9999;
/// The most bytes of a sheet.
pub const MAX_SHEET_BYTES: usize = 32768;
/// The entries of the tree slice of [`lent::read_sheet`].
pub const SHEET_TREE: usize = 510;
/// The entries of the matrix slice of [`lent::read_sheet`].
pub const SHEET_MATRIX: usize = 16384;
/// The bytes of the out slice of [`lent::report`].
pub const REPORT_BYTES: usize = 524288;

/// Sizes that refusal 1 lets pass; others need no room, because they are refused first.
fn within(n: usize, c: usize) -> bool {
    (MIN_TAXA..=MAX_TAXA).contains(&n) && (1..=MAX_CHARACTERS).contains(&c)
}

/// What is found of one character.
#[derive(Clone, Debug, PartialEq, Eq)]
pub struct Character {
    /// Length, m, g and the indices.
    pub scores: Scores,
    /// The first-pass ranges: the states a node has in some least-length way of its subtree taken alone.
    pub first: Ranges,
    /// The subtree lengths: the least length of each interior node's subtree taken alone, node n+1 first.
    pub subtree: Vec<u32>,
    /// The final ranges: the states a node has in some least-length way of the whole tree.
    pub last: Ranges,
    /// The reconstruction: a state for each interior node, node n+1 first. It has the least length.
    pub states: Vec<u16>,
}

/// One character afresh. Refusals: 1 to 6, 8 if there is no such character, 7 in this character's cells.
pub fn character(n: usize, c: usize, character: usize, resolve: Resolve, tree: &[u16], matrix: &[u16]) -> Result<Character, Refusal> {
    let entries = if within(n, c) { n - 2 } else { 0 };
    let (mut first, mut last) = (Ranges::room(entries), Ranges::room(entries));
    let (mut subtree, mut states) = (vec![0; entries], vec![0; entries]);
    let found = lent::Found {
        first_low: &mut first.low,
        first_high: &mut first.high,
        subtree: &mut subtree,
        final_low: &mut last.low,
        final_high: &mut last.high,
        states: &mut states,
    };
    let scores = lent::character(n, c, character, resolve, tree, matrix, found)?;
    Ok(Character { scores, first, subtree, last, states })
}

pub use lent::tree;

/// The page for engineers: what it shows in Rust runs as a test.
#[cfg(doctest)]
#[doc = include_str!("../../../docs/PROGRAMS.md")]
struct Programs;

/// A sheet that was read. Whether its tree is one, and its states are 0 to 9999, the other calls will say.
#[derive(Clone, Debug, PartialEq, Eq)]
pub struct Sheet {
    /// The number of taxa.
    pub n: usize,
    /// The number of characters.
    pub c: usize,
    /// How reconstructions are resolved; ACCTRAN where the sheet does not say.
    pub resolve: Resolve,
    /// The tree table: 2n-2 entries.
    pub tree: Vec<u16>,
    /// The matrix: n rows of c states.
    pub matrix: Vec<u16>,
}

impl Sheet {
    /// Reads a sheet. Refusals: 12, 11 and 1, in this order.
    ///
    /// ```
    /// use badrumello::{Refusal, Resolve, Sheet};
    ///
    /// let sheet = Sheet::read(b"taxa=3\ncharacters=1\nancestors=0,4,4,1\nrow=2\nrow=0\nrow=9\nresolve=deltran\n")?;
    /// assert_eq!((sheet.n, sheet.c, sheet.resolve), (3, 1, Resolve::Deltran));
    /// assert_eq!(sheet.tree, [0, 4, 4, 1]);
    /// assert_eq!(sheet.matrix, [2, 0, 9]);
    ///
    /// let refusal = Sheet::read(b"taxa=3\ncharacters=01\n").unwrap_err();
    /// assert_eq!(refusal, Refusal { number: 11, place: 2 });
    /// assert_eq!(refusal.to_string(), "refusal 11 at 2: line 2 of the sheet is not in form, or missing");
    /// # Ok::<(), badrumello::Refusal>(())
    /// ```
    pub fn read(text: &[u8]) -> Result<Sheet, Refusal> {
        let (mut tree, mut matrix) = (vec![0; SHEET_TREE], vec![0; SHEET_MATRIX]);
        let lent::Head { n, c, resolve } = lent::read_sheet(text, &mut tree, &mut matrix)?;
        tree.truncate(2 * n - 2);
        matrix.truncate(n * c);
        Ok(Sheet { n, c, resolve, tree, matrix })
    }
}

/// The report of a sheet. A refused sheet has a report of one line, as `refused=6,3`.
///
/// ```
/// let sheet = b"taxa=3\ncharacters=1\nancestors=0,4,4,1\nrow=2\nrow=0\nrow=9\n";
/// let report = "taxa=3\ncharacters=1\nlength=9\nci=9/9,1000\nri=none\nresolve=acctran\n\
///               character=1\nlength=9\nfirst=0-9\nmpr=2-2\nstates=2\nci=9/9,1000\nri=none\n";
/// assert_eq!(badrumello::report(sheet), report);
/// ```
pub fn report(text: &[u8]) -> String {
    let mut out = vec![0; REPORT_BYTES];
    match lent::report(text, &mut out) {
        Ok(bytes) => out.truncate(bytes),
        Err(refusal) => unreachable!("the slice has the length that is asked: {refusal}"),
    }
    String::from_utf8(out).unwrap_or_else(|_| unreachable!("a report is ASCII"))
}
