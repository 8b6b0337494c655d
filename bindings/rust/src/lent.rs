//! The eight calls over slices that you lend: no call here allocates. Lengths must be exact, and are refused otherwise; the order of the slices in
//! each list of parameters is that by which refusal 2 numbers them.
//!
//! A slice that is written is borrowed mutably, so it cannot be one of the others.
use crate::raw;
use crate::{Refusal, Resolve, Scores};

/// A C function: its numbers, then each slice that is read and each that is written, as a pointer and a length.
///
/// Safe to call here: every pointer and length is of one borrowed slice, and what is written is borrowed mutably.
macro_rules! c_function {
    ($function:ident($($number:expr),*; $($read:ident),*; $($written:ident),*)) => {
        // SAFETY: as said above.
        unsafe {
            raw::$function($($number,)* $($read.as_ptr(), $read.len(),)* $($written.as_mut_ptr(), $written.len()),*)
        }
    };
}

/// The slices that [`character`] writes: an entry for each interior node, n-2 in all, node n+1 first.
#[derive(Debug)]
pub struct Found<'a> {
    /// The low ends of the first-pass ranges.
    pub first_low: &'a mut [u16],
    /// The high ends of the first-pass ranges.
    pub first_high: &'a mut [u16],
    /// The subtree lengths.
    pub subtree: &'a mut [u32],
    /// The low ends of the final ranges.
    pub final_low: &'a mut [u16],
    /// The high ends of the final ranges.
    pub final_high: &'a mut [u16],
    /// The reconstruction.
    pub states: &'a mut [u16],
}

/// One character afresh: the scores, and in `found` its ranges, subtree lengths and reconstruction. Refusals: 1 to 6, 8, 7 in this character.
///
/// ```
/// use badrumello::{lent, Resolve};
///
/// let tree = [0, 5, 6, 6, 1, 5];
/// let matrix = [0, 0, 3, 1, 1, 1, 5, 0];
/// let (mut a, mut b, mut d, mut e, mut f) = ([0; 2], [0; 2], [0; 2], [0; 2], [0; 2]);
/// let mut subtree = [0; 2];
/// let found = lent::Found {
///     first_low: &mut a, first_high: &mut b, subtree: &mut subtree, final_low: &mut d, final_high: &mut e, states: &mut f,
/// };
/// let scores = lent::character(4, 2, 1, Resolve::Deltran, &tree, &matrix, found)?;
/// assert_eq!(scores.length, 7);
/// assert_eq!((a, b), ([3, 1], [3, 5])); // first pass: 3-3 and 1-5
/// assert_eq!((d, e), ([1, 1], [3, 3])); // final: 1-3 twice
/// assert_eq!(f, [1, 1]);
/// # Ok::<(), badrumello::Refusal>(())
/// ```
pub fn character(n: usize, c: usize, character: usize, resolve: Resolve, tree: &[u16], matrix: &[u16], found: Found<'_>) -> Result<Scores, Refusal> {
    let Found { first_low, first_high, subtree, final_low, final_high, states } = found;
    let mut result = [0; 7];
    let value = c_function!(badrumello_character(
        n as u64, c as u64, character as u64, resolve.number();
        tree, matrix;
        first_low, first_high, subtree, final_low, final_high, states, result
    ));
    Refusal::read(value).map(|_| Scores::read(result))
}

/// All characters afresh: the scores of the tree. Refusals: 1 to 7.
pub fn tree(n: usize, c: usize, tree: &[u16], matrix: &[u16]) -> Result<Scores, Refusal> {
    let mut result = [0; 7];
    let value = c_function!(badrumello_tree(n as u64, c as u64; tree, matrix; result));
    Refusal::read(value).map(|_| Scores::read(result))
}

/// Builds a kept table: three slices of (n-2)c entries, character 1 first, and of each character node n+1 first. Refusals: 1 to 7.
pub fn build(n: usize, c: usize, tree: &[u16], matrix: &[u16], low: &mut [u16], high: &mut [u16], lengths: &mut [u32]) -> Result<(), Refusal> {
    let value = c_function!(badrumello_build(n as u64, c as u64; tree, matrix; low, high, lengths));
    Refusal::read(value).map(|_| ())
}

/// Corrects one cell, and the kept table with it: the count of interior nodes between the taxon and the root, whose entries for this character are
/// written anew. Refusals: 1 to 6, 8, 7 in this character, 9, and 10 in the entries that are read for it.
#[allow(clippy::too_many_arguments)]
pub fn correct(
    n: usize,
    c: usize,
    taxon: usize,
    character: usize,
    state: u16,
    tree: &[u16],
    matrix: &mut [u16],
    low: &mut [u16],
    high: &mut [u16],
    lengths: &mut [u32],
) -> Result<usize, Refusal> {
    let value = c_function!(badrumello_correct(
        n as u64, c as u64, taxon as u64, character as u64, state;
        tree;
        matrix, low, high, lengths
    ));
    Refusal::read(value).map(|count| count as usize)
}

/// The length of the tree, from a kept table. Refusals: 1 to 7, and 10 in any entry.
pub fn kept_length(n: usize, c: usize, tree: &[u16], matrix: &[u16], low: &[u16], high: &[u16], lengths: &[u32]) -> Result<u32, Refusal> {
    let value = c_function!(badrumello_kept_length(n as u64, c as u64; tree, matrix, low, high, lengths;));
    Refusal::read(value)
}

/// One character's length, from a kept table, and its final ranges into two slices of n-2 entries. Refusals: 1 to 6, 8, 7 in this character, and 10
/// in its entries.
#[allow(clippy::too_many_arguments)]
pub fn kept_character(
    n: usize,
    c: usize,
    character: usize,
    tree: &[u16],
    matrix: &[u16],
    low: &[u16],
    high: &[u16],
    lengths: &[u32],
    final_low: &mut [u16],
    final_high: &mut [u16],
) -> Result<u32, Refusal> {
    let value = c_function!(badrumello_kept_character(
        n as u64, c as u64, character as u64;
        tree, matrix, low, high, lengths;
        final_low, final_high
    ));
    Refusal::read(value)
}

/// What a sheet says beside its tree and its matrix.
#[derive(Clone, Copy, Debug, PartialEq, Eq, Hash)]
pub struct Head {
    /// The number of taxa.
    pub n: usize,
    /// The number of characters.
    pub c: usize,
    /// How reconstructions are resolved.
    pub resolve: Resolve,
}

/// Reads a sheet into a tree slice of [`crate::SHEET_TREE`] entries and a matrix slice of [`crate::SHEET_MATRIX`]; entries past those that the sheet
/// fills keep their values. Refusals: 2, 12, 11 and 1, in this order.
pub fn read_sheet(text: &[u8], tree: &mut [u16], matrix: &mut [u16]) -> Result<Head, Refusal> {
    let mut result = [0; 3];
    let value = c_function!(badrumello_read_sheet(; text; tree, matrix, result));
    Refusal::read(value)?;
    let [n, c, resolve] = result;
    Ok(Head { n: n as usize, c: c as usize, resolve: if resolve == 0 { Resolve::Acctran } else { Resolve::Deltran } })
}

/// Writes the report of a sheet into a slice of [`crate::REPORT_BYTES`] and answers its number of bytes; bytes past it keep their values. A refused
/// sheet has a report of one line. Refusal: 2.
pub fn report(text: &[u8], out: &mut [u8]) -> Result<usize, Refusal> {
    let value = c_function!(badrumello_report(; text; out));
    Refusal::read(value).map(|bytes| bytes as usize)
}
