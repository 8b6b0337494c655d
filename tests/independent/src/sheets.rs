//! Sheets and reports.
use crate::calls::{Found, Scores, describe, states_of, tree_scores};
use crate::trees::Tree;
use crate::{Answer, Refusal, refuse};
use std::fmt::Write;

pub const MOST_BYTES: usize = 32768;
pub const TREE_SLICE: usize = 510;
pub const MATRIX_SLICE: usize = 16384;
pub const REPORT_SLICE: usize = 524288;

pub struct Sheet {
    pub n: usize,
    pub c: usize,
    pub tree: Vec<u16>,
    pub matrix: Vec<u16>,
    pub deltran: bool,
}

/// The lines of a text that are still to be read.
struct Lines<'a> {
    rest: &'a [u8],
    number: usize,
}

impl<'a> Lines<'a> {
    /// The value of the next line, which has this key; 11 if it has another or is not there.
    fn value(&mut self, key: &[u8]) -> Result<&'a [u8], Refusal> {
        self.number += 1;
        let Some(end) = self.rest.iter().position(|&byte| byte == b'\n') else { return self.fault() };
        let line = &self.rest[..end];
        self.rest = &self.rest[end + 1..];
        match line.strip_prefix(key).and_then(|line| line.strip_prefix(b"=")) {
            Some(value) => Ok(value),
            None => self.fault(),
        }
    }

    /// The next line's numbers, so many.
    fn numbers(&mut self, key: &[u8], count: usize, into: &mut Vec<u16>) -> Result<(), Refusal> {
        let value = self.value(key)?;
        let before = into.len();
        for word in value.split(|&byte| byte == b',') {
            match number(word) {
                Some(number) => into.push(number),
                None => return self.fault(),
            }
        }
        if into.len() - before == count { Ok(()) } else { self.fault() }
    }

    /// The next line's one number.
    fn one(&mut self, key: &[u8]) -> Result<u16, Refusal> {
        let mut numbers = Vec::new();
        self.numbers(key, 1, &mut numbers)?;
        Ok(numbers[0])
    }

    fn fault<T>(&self) -> Result<T, Refusal> {
        refuse(11, self.number)
    }
}

/// Decimal, 0 to 65535, no leading zero.
fn number(word: &[u8]) -> Option<u16> {
    if word.is_empty() || !word.iter().all(u8::is_ascii_digit) || (word.len() > 1 && word[0] == b'0') {
        return None;
    }
    std::str::from_utf8(word).ok()?.parse().ok()
}

/// 12, 11 and 1.
fn read(text: &[u8]) -> Result<Sheet, Refusal> {
    if text.len() > MOST_BYTES {
        return refuse(12, 0);
    }
    let mut lines = Lines { rest: text, number: 0 };
    let n = usize::from(lines.one(b"taxa")?);
    let c = usize::from(lines.one(b"characters")?);
    if !(3..=256).contains(&n) || !(1..=512).contains(&c) {
        return refuse(1, 0);
    }
    let mut tree = Vec::new();
    lines.numbers(b"ancestors", 2 * n - 2, &mut tree)?;
    let mut matrix = Vec::new();
    for _ in 0..n {
        lines.numbers(b"row", c, &mut matrix)?;
    }
    let deltran = match lines.rest {
        [] => false,
        _ => match lines.value(b"resolve")? {
            b"acctran" => false,
            b"deltran" => true,
            _ => return lines.fault(),
        },
    };
    if lines.rest.is_empty() { Ok(Sheet { n, c, tree, matrix, deltran }) } else { refuse(11, lines.number + 1) }
}

pub fn read_sheet(text: &[u8], tree: &mut [u16], matrix: &mut [u16], result: &mut [u32]) -> Answer {
    let lengths = [(tree.len(), TREE_SLICE), (matrix.len(), MATRIX_SLICE), (result.len(), 3)];
    if let Some(slice) = lengths.iter().position(|(has, asked)| has != asked) {
        return refuse(2, slice + 1);
    }
    let sheet = read(text)?;
    tree[..sheet.tree.len()].copy_from_slice(&sheet.tree);
    matrix[..sheet.matrix.len()].copy_from_slice(&sheet.matrix);
    result.copy_from_slice(&[sheet.n as u32, sheet.c as u32, sheet.deltran.into()]);
    Ok(0)
}

/// `name=over/under,thousandths`, or `name=none`.
fn put_index(out: &mut String, name: &str, index: Option<(u32, u32)>) {
    match index.map(|(over, under)| (u64::from(over), u64::from(under))) {
        None => writeln!(out, "{name}=none"),
        Some((over, under)) => writeln!(out, "{name}={over}/{under},{}", (over * 2000 + under) / (under * 2)),
    }
    .expect("a string takes all");
}

fn put_list<T: std::fmt::Display>(out: &mut String, name: &str, list: impl Iterator<Item = T>) {
    write!(out, "{name}=").expect("a string takes all");
    for (at, one) in list.enumerate() {
        write!(out, "{}{one}", if at == 0 { "" } else { "," }).expect("a string takes all");
    }
    out.push('\n');
}

fn put_ranges(out: &mut String, name: &str, low: &[u16], high: &[u16]) {
    put_list(out, name, low.iter().zip(high).map(|(low, high)| format!("{low}-{high}")));
}

fn put_scores(out: &mut String, scores: &Scores) {
    put_index(out, "ci", scores.ci());
    put_index(out, "ri", scores.ri());
}

fn print(sheet: &Sheet) -> Result<String, Refusal> {
    let Sheet { n, c, .. } = *sheet;
    let tree = Tree::accept(n, &sheet.tree)?;
    if let Some(cell) = sheet.matrix.iter().position(|&state| state > 9999) {
        return refuse(7, cell + 1);
    }
    let mut out = String::new();
    let scores = tree_scores(&tree, c, &sheet.matrix);
    write!(out, "taxa={n}\ncharacters={c}\nlength={}\n", scores.length).expect("a string takes all");
    put_scores(&mut out, &scores);
    writeln!(out, "resolve={}", if sheet.deltran { "deltran" } else { "acctran" }).expect("a string takes all");
    let [mut first_low, mut first_high, mut final_low, mut final_high, mut states] = std::array::from_fn(|_| vec![0; n - 2]);
    let mut subtree = vec![0; n - 2];
    for number in 1..=c {
        let found = Found {
            first_low: &mut first_low,
            first_high: &mut first_high,
            subtree: &mut subtree,
            final_low: &mut final_low,
            final_high: &mut final_high,
            states: &mut states,
        };
        let scores = describe(&tree, &states_of(c, number, &sheet.matrix)?, sheet.deltran, found);
        write!(out, "character={number}\nlength={}\n", scores.length).expect("a string takes all");
        put_ranges(&mut out, "first", &first_low, &first_high);
        put_ranges(&mut out, "mpr", &final_low, &final_high);
        put_list(&mut out, "states", states.iter());
        put_scores(&mut out, &scores);
    }
    Ok(out)
}

pub fn report(text: &[u8], out: &mut [u8]) -> Answer {
    if out.len() != REPORT_SLICE {
        return refuse(2, 1);
    }
    let report = match read(text).and_then(|sheet| print(&sheet)) {
        Ok(report) => report,
        Err(Refusal { number, place }) => format!("refused={number},{place}\n"),
    };
    out[..report.len()].copy_from_slice(report.as_bytes());
    Ok(report.len() as u32)
}
