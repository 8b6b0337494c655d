//! Every slice that a call may be lent, and how it is shown when something differs.
use std::fmt;

/// Every slice that a call may be lent. Those it is not lent are empty.
#[derive(Clone, Default, PartialEq, Eq)]
pub struct Buffers {
    pub text: Vec<u8>,
    pub tree: Vec<u16>,
    pub matrix: Vec<u16>,
    pub first_low: Vec<u16>,
    pub first_high: Vec<u16>,
    pub subtree: Vec<u32>,
    pub final_low: Vec<u16>,
    pub final_high: Vec<u16>,
    pub states: Vec<u16>,
    pub low: Vec<u16>,
    pub high: Vec<u16>,
    pub lengths: Vec<u32>,
    pub result: Vec<u32>,
    pub out: Vec<u8>,
}

/// The start of a list, and how long it is.
struct Start<'a, T>(&'a [T]);

impl<T: fmt::Debug> fmt::Debug for Start<'_, T> {
    fn fmt(&self, out: &mut fmt::Formatter<'_>) -> fmt::Result {
        let shown = &self.0[..self.0.len().min(400)];
        write!(out, "{shown:?}")?;
        if shown.len() < self.0.len() { write!(out, " and more, {} in all", self.0.len()) } else { Ok(()) }
    }
}

impl fmt::Debug for Buffers {
    fn fmt(&self, out: &mut fmt::Formatter<'_>) -> fmt::Result {
        if !self.text.is_empty() {
            let text = self.text[..self.text.len().min(2000)].escape_ascii();
            writeln!(out, "  text ({} bytes): \"{text}\"", self.text.len())?;
        }
        for (name, list) in [
            ("tree", &self.tree),
            ("matrix", &self.matrix),
            ("first_low", &self.first_low),
            ("first_high", &self.first_high),
            ("final_low", &self.final_low),
            ("final_high", &self.final_high),
            ("states", &self.states),
            ("low", &self.low),
            ("high", &self.high),
        ] {
            if !list.is_empty() {
                writeln!(out, "  {name}: {:?}", Start(list))?;
            }
        }
        for (name, list) in [("subtree", &self.subtree), ("lengths", &self.lengths), ("result", &self.result)] {
            if !list.is_empty() {
                writeln!(out, "  {name}: {:?}", Start(list))?;
            }
        }
        if !self.out.is_empty() {
            let end = self.out.iter().position(|&byte| byte == UNTOUCHED).unwrap_or(self.out.len()).min(4000);
            writeln!(out, "  out ({} bytes): \"{}\"", self.out.len(), self.out[..end].escape_ascii())?;
        }
        Ok(())
    }
}

/// What out slices hold before a call: no byte of a report.
pub const UNTOUCHED: u8 = 0xA5;
