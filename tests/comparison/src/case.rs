//! A call with everything it is lent; what the library and the independent implementation make of it.
pub use crate::buffers::{Buffers, UNTOUCHED};
pub use crate::laid::Memory;

use crate::laid::Laid;
use badrumello::{lent, raw};
use independent::{calls, coded, sheets};

/// Which C function, and its numbers.
#[derive(Clone, Copy, Debug, PartialEq, Eq)]
pub enum Call {
    Character { n: u64, c: u64, character: u64, resolve: u8 },
    Tree { n: u64, c: u64 },
    Build { n: u64, c: u64 },
    Correct { n: u64, c: u64, taxon: u64, character: u64, state: u16 },
    KeptLength { n: u64, c: u64 },
    KeptCharacter { n: u64, c: u64, character: u64 },
    ReadSheet,
    Report,
}

impl Call {
    pub fn name(&self) -> &'static str {
        match self {
            Call::Character { .. } => "character",
            Call::Tree { .. } => "tree",
            Call::Build { .. } => "build",
            Call::Correct { .. } => "correct",
            Call::KeptLength { .. } => "kept_length",
            Call::KeptCharacter { .. } => "kept_character",
            Call::ReadSheet => "read_sheet",
            Call::Report => "report",
        }
    }
}

/// A call and what it is lent.
#[derive(Clone)]
pub struct Case {
    pub call: Call,
    pub lent: Buffers,
}

/// A C function: its numbers, and then each laid slice as a pointer and a length.
macro_rules! c_function {
    ($function:ident($($number:expr),*; $($slice:ident),*)) => {
        raw::$function($($number,)* $($slice.pointer(), $slice.len()),*)
    };
}

impl Case {
    /// What document 01 says: the number, and the slices after the call.
    pub fn expected(&self) -> (u64, Buffers) {
        let mut lent = self.lent.clone();
        let b = &mut lent;
        let answer = match self.call {
            Call::Character { n, c, character, resolve } => {
                let found = calls::Found {
                    first_low: &mut b.first_low,
                    first_high: &mut b.first_high,
                    subtree: &mut b.subtree,
                    final_low: &mut b.final_low,
                    final_high: &mut b.final_high,
                    states: &mut b.states,
                };
                calls::character(n, c, character, resolve != 0, &b.tree, &b.matrix, found, &mut b.result)
            }
            Call::Tree { n, c } => calls::tree(n, c, &b.tree, &b.matrix, &mut b.result),
            Call::Build { n, c } => calls::build(n, c, &b.tree, &b.matrix, &mut b.low, &mut b.high, &mut b.lengths),
            Call::Correct { n, c, taxon, character, state } => {
                calls::correct(n, c, taxon, character, state, &b.tree, &mut b.matrix, &mut b.low, &mut b.high, &mut b.lengths)
            }
            Call::KeptLength { n, c } => calls::kept_length(n, c, &b.tree, &b.matrix, &b.low, &b.high, &b.lengths),
            Call::KeptCharacter { n, c, character } => {
                calls::kept_character(n, c, character, &b.tree, &b.matrix, &b.low, &b.high, &b.lengths, &mut b.final_low, &mut b.final_high)
            }
            Call::ReadSheet => sheets::read_sheet(&b.text, &mut b.tree, &mut b.matrix, &mut b.result),
            Call::Report => sheets::report(&b.text, &mut b.out),
        };
        (coded(answer), lent)
    }

    /// What the library's C function answers, and the slices after the call.
    pub fn library(&self, memory: Memory) -> Result<(u64, Buffers), String> {
        let mut lent = self.lent.clone();
        let b = &mut lent;
        let words = |values: &[u16], only_written: bool| Laid::new(values, 0xBEEF, memory, only_written);
        let longs = |values: &[u32], only_written: bool| Laid::new(values, 0xDEAD_BEEF, memory, only_written);
        let bytes = |values: &[u8], only_written: bool| Laid::new(values, 0x5A, memory, only_written);
        let sheet = self.call == Call::ReadSheet;
        let building = matches!(self.call, Call::Build { .. });
        let mut text = bytes(&b.text, false);
        let mut tree = words(&b.tree, sheet);
        let mut matrix = words(&b.matrix, sheet);
        let mut first_low = words(&b.first_low, true);
        let mut first_high = words(&b.first_high, true);
        let mut subtree = longs(&b.subtree, true);
        let mut final_low = words(&b.final_low, true);
        let mut final_high = words(&b.final_high, true);
        let mut states = words(&b.states, true);
        let mut low = words(&b.low, building);
        let mut high = words(&b.high, building);
        let mut lengths = longs(&b.lengths, building);
        let mut result = longs(&b.result, true);
        let mut out = bytes(&b.out, true);
        // SAFETY: each slice is an allocation, or a part of one, of its own.
        let value = unsafe {
            match self.call {
                Call::Character { n, c, character, resolve } => c_function!(badrumello_character(
                    n, c, character, resolve; tree, matrix, first_low, first_high, subtree, final_low, final_high, states, result
                )),
                Call::Tree { n, c } => c_function!(badrumello_tree(n, c; tree, matrix, result)),
                Call::Build { n, c } => c_function!(badrumello_build(n, c; tree, matrix, low, high, lengths)),
                Call::Correct { n, c, taxon, character, state } => {
                    c_function!(badrumello_correct(n, c, taxon, character, state; tree, matrix, low, high, lengths))
                }
                Call::KeptLength { n, c } => c_function!(badrumello_kept_length(n, c; tree, matrix, low, high, lengths)),
                Call::KeptCharacter { n, c, character } => {
                    c_function!(badrumello_kept_character(n, c, character; tree, matrix, low, high, lengths, final_low, final_high))
                }
                Call::ReadSheet => c_function!(badrumello_read_sheet(; text, tree, matrix, result)),
                Call::Report => c_function!(badrumello_report(; text, out)),
            }
        };
        let accepted = value >> 32 == 0;
        let all = |len: usize| if accepted { len } else { 0 };
        text.after(&mut b.text, 0x5A, 0)?;
        result.after(&mut b.result, 0xDEAD_BEEF, all(result.len()))?;
        let (in_tree, in_matrix) = match (sheet && accepted, &b.result[..]) {
            (true, &[n, c, _]) => ((2 * n as usize).saturating_sub(2), n as usize * c as usize),
            _ => (0, 0),
        };
        tree.after(&mut b.tree, 0xBEEF, in_tree)?;
        matrix.after(&mut b.matrix, 0xBEEF, in_matrix)?;
        for (laid, values) in [
            (&first_low, &mut b.first_low),
            (&first_high, &mut b.first_high),
            (&final_low, &mut b.final_low),
            (&final_high, &mut b.final_high),
            (&states, &mut b.states),
            (&low, &mut b.low),
            (&high, &mut b.high),
        ] {
            laid.after(values, 0xBEEF, all(laid.len()))?;
        }
        for (laid, values) in [(&subtree, &mut b.subtree), (&lengths, &mut b.lengths)] {
            laid.after(values, 0xDEAD_BEEF, all(laid.len()))?;
        }
        out.after(&mut b.out, 0x5A, all(value as usize))?;
        Ok((value, lent))
    }

    /// What the Rust binding answers, as the C function's number, and the slices after the call. None where the binding cannot say the case: its
    /// result slice always has the right length, and its `resolve` is an enum.
    pub fn binding(&self) -> Option<(u64, Buffers)> {
        let mut lent = self.lent.clone();
        let b = &mut lent;
        let small = |number: u64| number as usize;
        let seven = |scores: badrumello::Scores, result: &mut [u32]| {
            let pair = |index| match index {
                badrumello::Index::None => (0, 0),
                badrumello::Index::Fraction { over, under } => (over, under),
            };
            let (ci, ri) = (pair(scores.ci), pair(scores.ri));
            result.copy_from_slice(&[scores.length, scores.m, scores.g, ci.0, ci.1, ri.0, ri.1]);
            scores.length
        };
        let answer = match self.call {
            Call::Character { n, c, character, resolve } => {
                if b.result.len() != 7 || resolve > 1 {
                    return None;
                }
                let resolve = if resolve == 0 { badrumello::Resolve::Acctran } else { badrumello::Resolve::Deltran };
                let found = lent::Found {
                    first_low: &mut b.first_low,
                    first_high: &mut b.first_high,
                    subtree: &mut b.subtree,
                    final_low: &mut b.final_low,
                    final_high: &mut b.final_high,
                    states: &mut b.states,
                };
                lent::character(small(n), small(c), small(character), resolve, &b.tree, &b.matrix, found).map(|scores| seven(scores, &mut b.result))
            }
            Call::Tree { n, c } => {
                if b.result.len() != 7 {
                    return None;
                }
                lent::tree(small(n), small(c), &b.tree, &b.matrix).map(|scores| seven(scores, &mut b.result))
            }
            Call::Build { n, c } => lent::build(small(n), small(c), &b.tree, &b.matrix, &mut b.low, &mut b.high, &mut b.lengths).map(|()| 0),
            Call::Correct { n, c, taxon, character, state } => lent::correct(
                small(n),
                small(c),
                small(taxon),
                small(character),
                state,
                &b.tree,
                &mut b.matrix,
                &mut b.low,
                &mut b.high,
                &mut b.lengths,
            )
            .map(|count| count as u32),
            Call::KeptLength { n, c } => lent::kept_length(small(n), small(c), &b.tree, &b.matrix, &b.low, &b.high, &b.lengths),
            Call::KeptCharacter { n, c, character } => lent::kept_character(
                small(n),
                small(c),
                small(character),
                &b.tree,
                &b.matrix,
                &b.low,
                &b.high,
                &b.lengths,
                &mut b.final_low,
                &mut b.final_high,
            ),
            Call::ReadSheet => {
                if b.result.len() != 3 {
                    return None;
                }
                lent::read_sheet(&b.text, &mut b.tree, &mut b.matrix).map(|head| {
                    b.result.copy_from_slice(&[head.n as u32, head.c as u32, (head.resolve == badrumello::Resolve::Deltran).into()]);
                    0
                })
            }
            Call::Report => lent::report(&b.text, &mut b.out).map(|bytes| bytes as u32),
        };
        let value = match answer {
            Ok(number) => number.into(),
            Err(refusal) => u64::from(refusal.number) << 32 | u64::from(refusal.place),
        };
        Some((value, lent))
    }

    /// Compares library and binding with what document 01 says: the number and the slices after the call, or a text that says what differs.
    pub fn compare(&self, memory: Memory) -> Result<(u64, Buffers), String> {
        let expected = self.expected();
        let library = self.library(memory).map_err(|fault| format!("{fault}\n{:?}\n{:?}", self.call, self.lent))?;
        if library != expected {
            return Err(self.differ("the library", library, expected));
        }
        if memory == Memory::Fenced
            && let Some(binding) = self.binding()
            && binding != expected
        {
            return Err(self.differ("the binding", binding, expected));
        }
        Ok(expected)
    }

    fn differ(&self, who: &str, has: (u64, Buffers), expected: (u64, Buffers)) -> String {
        let say = |value: u64| match value >> 32 {
            0 => format!("{value}"),
            number => format!("refusal {number} at {}", value as u32),
        };
        format!(
            "{who} answers {} where {} is expected\n{:?}\nbefore:\n{:?}{who} after:\n{:?}expected after:\n{:?}",
            say(has.0),
            say(expected.0),
            self.call,
            self.lent,
            has.1,
            expected.1
        )
    }
}
