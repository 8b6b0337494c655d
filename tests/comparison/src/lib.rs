//! The library against an independent implementation of document 01: cases of every call, made from seeds.
pub mod buffers;
pub mod case;
pub mod groups;
pub mod inputs;
pub mod laid;
pub mod random;
pub mod sheet_inputs;
