//! The C functions as they are. `include/badrumello.h` says what each answers and refuses; [`crate::lent`] is the same with borrowed slices.
//!
//! Each answers one number: below 2^32 the answer, and otherwise 2^32 times the number of the refusal, plus its place.
//!
//! # Safety
//!
//! A slice is a pointer and its length in elements. Each pointer is not null and aligned, has so many elements behind it (initialised, where the
//! pointer is `*const`, and for `matrix`, `low`, `high` and `lengths` of [`badrumello_correct`]), and a slice that is written overlaps no other slice
//! of the call and is used by nobody else during it.

// a slice's pointer and length stand side by side
#[rustfmt::skip]
unsafe extern "C" {
    /// One character afresh.
    pub fn badrumello_character(
        n: u64, c: u64, character: u64, resolve: u8,
        tree: *const u16, tree_len: usize, matrix: *const u16, matrix_len: usize,
        first_low: *mut u16, first_low_len: usize, first_high: *mut u16, first_high_len: usize,
        subtree: *mut u32, subtree_len: usize,
        final_low: *mut u16, final_low_len: usize, final_high: *mut u16, final_high_len: usize,
        states: *mut u16, states_len: usize,
        result: *mut u32, result_len: usize,
    ) -> u64;

    /// All characters afresh.
    pub fn badrumello_tree(
        n: u64, c: u64,
        tree: *const u16, tree_len: usize, matrix: *const u16, matrix_len: usize,
        result: *mut u32, result_len: usize,
    ) -> u64;

    /// Builds a kept table.
    pub fn badrumello_build(
        n: u64, c: u64,
        tree: *const u16, tree_len: usize, matrix: *const u16, matrix_len: usize,
        low: *mut u16, low_len: usize, high: *mut u16, high_len: usize, lengths: *mut u32, lengths_len: usize,
    ) -> u64;

    /// Corrects one cell, and the kept table with it.
    pub fn badrumello_correct(
        n: u64, c: u64, taxon: u64, character: u64, state: u16,
        tree: *const u16, tree_len: usize, matrix: *mut u16, matrix_len: usize,
        low: *mut u16, low_len: usize, high: *mut u16, high_len: usize, lengths: *mut u32, lengths_len: usize,
    ) -> u64;

    /// The tree's length, from a kept table.
    pub fn badrumello_kept_length(
        n: u64, c: u64,
        tree: *const u16, tree_len: usize, matrix: *const u16, matrix_len: usize,
        low: *const u16, low_len: usize, high: *const u16, high_len: usize, lengths: *const u32, lengths_len: usize,
    ) -> u64;

    /// One character's length and final ranges, from a kept table.
    pub fn badrumello_kept_character(
        n: u64, c: u64, character: u64,
        tree: *const u16, tree_len: usize, matrix: *const u16, matrix_len: usize,
        low: *const u16, low_len: usize, high: *const u16, high_len: usize, lengths: *const u32, lengths_len: usize,
        final_low: *mut u16, final_low_len: usize, final_high: *mut u16, final_high_len: usize,
    ) -> u64;

    /// Reads a sheet.
    pub fn badrumello_read_sheet(
        text: *const u8, text_len: usize,
        tree: *mut u16, tree_len: usize, matrix: *mut u16, matrix_len: usize,
        result: *mut u32, result_len: usize,
    ) -> u64;

    /// The report of a sheet.
    pub fn badrumello_report(text: *const u8, text_len: usize, out: *mut u8, out_len: usize) -> u64;
}
