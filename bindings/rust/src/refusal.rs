//! Why a call said no, in words.
use std::error::Error;
use std::fmt;

/// A call's refusal: its number, and the place that it names. A call that is refused has changed nothing.
///
/// Nodes, cells, lines and slices are counted from 1, and [`fmt::Display`] says what the numbers mean:
///
/// ```
/// let refusal = badrumello::Refusal { number: 6, place: 3 };
/// assert_eq!(refusal.to_string(), "refusal 6 at 3: the ancestors of node 3 never reach the root");
/// ```
#[derive(Clone, Copy, Debug, PartialEq, Eq, Hash)]
pub struct Refusal {
    /// Which refusal: 1 to 12.
    pub number: u32,
    /// Where: a slice, node, cell or line, or 0 where the number says all.
    pub place: u32,
}

impl Refusal {
    /// The answer or the refusal that a C function's number stands for.
    pub(crate) fn read(value: u64) -> Result<u32, Refusal> {
        let (number, place) = ((value >> 32) as u32, value as u32);
        if number == 0 { Ok(place) } else { Err(Refusal { number, place }) }
    }
}

impl fmt::Display for Refusal {
    fn fmt(&self, out: &mut fmt::Formatter<'_>) -> fmt::Result {
        let Refusal { number, place } = *self;
        write!(out, "refusal {number} at {place}: ")?;
        match (number, place) {
            (1, _) => write!(out, "taxa must be 3 to 256 and characters 1 to 512"),
            (2, _) => write!(out, "slice {place} of the call has not exactly the length that is asked"),
            (3, 0) => write!(out, "no entry of the tree table is 0, so there is no root"),
            (3, _) => write!(out, "the entry of node {place} is 0, but it is an interior node or another node is the root"),
            (4, _) => write!(out, "the entry of node {place} is no node, or names a taxon that is not the root"),
            (5, _) => write!(out, "node {place} has the wrong number of descendants: one for the root, two for an interior node"),
            (6, _) => write!(out, "the ancestors of node {place} never reach the root"),
            (7, _) => write!(out, "the state in cell {place} of the matrix is above 9999"),
            (8, _) => write!(out, "there is no such taxon or character"),
            (9, _) => write!(out, "the new state is above 9999"),
            (10, _) => write!(out, "the kept table's entry of node {place} is none: low above high, high above 9999 or length above 5089491"),
            (11, _) => write!(out, "line {place} of the sheet is not in form, or missing"),
            (12, _) => write!(out, "the sheet has more than 32768 bytes"),
            _ => write!(out, "a refusal that this binding does not know"),
        }
    }
}

impl Error for Refusal {}
