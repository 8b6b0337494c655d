//! Document 01 as an engineer writes it without proofs. It was written from the documents alone and shares nothing with the library; the comparison
//! (`tests/comparison`) holds the library to it, and the benchmark (`benchmarks`) takes it as the baseline.
//!
//! - [`trees`]: which tree tables are accepted, refusals 3 to 6, and the shape of one that is
//! - [`ranges`]: ranges of states and their join
//! - [`calls`]: the six calls about trees and matrices, with the lists of parameters of the C functions
//! - [`sheets`]: the two calls about sheets
//! - [`ways`]: lengths and ranges of a small tree by going through every way of giving integers to its interior nodes, without ranges or joins
pub mod calls;
pub mod ranges;
pub mod sheets;
pub mod trees;
pub mod ways;

/// A number that means no, and its place.
#[derive(Clone, Copy, Debug, PartialEq, Eq)]
pub struct Refusal {
    pub number: u32,
    pub place: u32,
}

/// What a call answers: a number, or no.
pub type Answer = Result<u32, Refusal>;

pub(crate) fn refuse<T>(number: u32, place: usize) -> Result<T, Refusal> {
    Err(Refusal { number, place: place as u32 })
}

/// An answer as a C function gives it: one number.
pub fn coded(answer: Answer) -> u64 {
    match answer {
        Ok(number) => number.into(),
        Err(Refusal { number, place }) => u64::from(number) << 32 | u64::from(place),
    }
}
