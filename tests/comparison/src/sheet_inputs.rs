//! Sheets, good and damaged, and the cases that read and report them.
use crate::case::{Buffers, Call, Case, UNTOUCHED};
use crate::inputs::{damage_length, damage_state, damage_tree, longs, matrix, tree, words};
use crate::random::Random;
use independent::sheets::{MATRIX_SLICE, MOST_BYTES, REPORT_SLICE, TREE_SLICE};

fn numbers(list: &[u16]) -> String {
    list.iter().map(u16::to_string).collect::<Vec<_>>().join(",")
}

/// A sheet's text.
pub fn sheet(n: usize, c: usize, tree: &[u16], matrix: &[u16], resolve: Option<&str>) -> Vec<u8> {
    let mut text = format!("taxa={n}\ncharacters={c}\nancestors={}\n", numbers(tree));
    for row in matrix.chunks(c) {
        text += &format!("row={}\n", numbers(row));
    }
    if let Some(resolve) = resolve {
        text += &format!("resolve={resolve}\n");
    }
    text.into_bytes()
}

/// n and c of a sheet that may fit its bytes.
fn sheet_sizes(random: &mut Random) -> (usize, usize) {
    match random.below(60) {
        0 => (256, random.between(1, 60)),
        1 => (random.between(3, 30), random.pick(&[511, 512])),
        2 => (random.between(40, 200), random.between(10, 70)),
        3..=9 => (random.between(9, 40), random.between(1, 30)),
        _ => (random.between(3, 7), random.between(1, 4)),
    }
}

/// A good sheet. Its tree or its states may be such as other calls refuse.
pub fn good_sheet(random: &mut Random) -> Vec<u8> {
    let (n, c) = sheet_sizes(random);
    let mut table = tree(random, n);
    let mut states = if random.one_in(3) { matrix(random, n, c) } else { (0..n * c).map(|_| random.below(10) as u16).collect() };
    if random.one_in(6) {
        damage_tree(random, n, &mut table);
    }
    if random.one_in(8) {
        damage_state(random, c, None, &mut states);
    }
    let resolve = random.pick(&[None, Some("acctran"), Some("deltran")]);
    sheet(n, c, &table, &states, resolve)
}

/// One fault in a sheet's text; now and then it stays a sheet.
pub fn damage_sheet(random: &mut Random, text: &mut Vec<u8>) {
    const BYTES: &[u8] = b"\n\n,,==0123456789-+ \t\r\0\xFFarxtd";
    let ends: Vec<usize> = text.iter().enumerate().filter(|(_, byte)| **byte == b'\n').map(|(at, _)| at).collect();
    let at = if text.is_empty() { 0 } else { random.below(text.len()) };
    match random.below(16) {
        0 if !text.is_empty() => drop(text.remove(at)),
        1 => text.insert(at, random.pick(BYTES)),
        2 if !text.is_empty() => text[at] = random.pick(BYTES),
        3 => text.truncate(at),
        4 => text.extend_from_slice(random.pick(&[
            &b"\n"[..],
            b" ",
            b"row=1\n",
            b"resolve=acctran\n",
            b"resolve=deltran\n",
            b"resolve=Acctran\n",
            b"resolve=\n",
            b"resolve=deltran",
            b"\0",
        ])),
        // the last line without its end
        5 => drop(text.pop()),
        // a line gone, a line twice, or two exchanged
        6..=8 if !ends.is_empty() => {
            let line = random.below(ends.len());
            let from = if line == 0 { 0 } else { ends[line - 1] + 1 };
            let whole = text[from..=ends[line]].to_vec();
            if random.one_in(2) {
                text.drain(from..=ends[line]);
            }
            if random.one_in(2) {
                let place = random.pick(&ends).min(text.len().saturating_sub(1));
                let place = if text.get(place) == Some(&b'\n') { place + 1 } else { 0 };
                text.splice(place..place, whole);
            }
        }
        // a number that is another, or none
        9..=11 if !text.is_empty() => {
            let digits: Vec<usize> = (0..text.len()).filter(|&at| text[at].is_ascii_digit()).collect();
            if !digits.is_empty() {
                let from = random.pick(&digits);
                let mut to = from;
                while to < text.len() && text[to].is_ascii_digit() {
                    to += 1;
                }
                let word = random.pick(&[
                    "00",
                    "01",
                    "65535",
                    "65536",
                    "65540",
                    "99999",
                    "100000",
                    "4294967296",
                    "18446744073709551616",
                    "",
                    "-1",
                    "+1",
                    "1 ",
                    " 1",
                    "1,",
                    ",1",
                    "10000",
                    "9999",
                    "0",
                    "2",
                    "3",
                    "256",
                    "257",
                    "512",
                    "513",
                    "1,1",
                ]);
                text.splice(from..to, word.bytes());
            }
        }
        // too long, or just not
        12 => {
            let long = random.pick(&[MOST_BYTES, MOST_BYTES + 1, MOST_BYTES + 2, 40_000, 70_000]);
            let byte = random.pick(b"\n0,r");
            if text.len() < long {
                text.resize(long, byte);
            }
        }
        // other sizes
        13 | 14 => {
            let key = random.pick(&[&b"taxa="[..], b"characters="]);
            if let Some(from) = text.windows(key.len()).position(|part| part == key) {
                let from = from + key.len();
                let to = text[from..].iter().position(|&byte| byte == b'\n').map_or(text.len(), |end| from + end);
                let word = random.pick(&["0", "1", "2", "257", "258", "513", "514", "65535", "65536", "65540", "3", "03"]);
                text.splice(from..to, word.bytes());
            }
        }
        // lines end as elsewhere
        _ => *text = text.split(|&byte| byte == b'\n').collect::<Vec<_>>().join(&b"\r\n"[..]),
    }
}

/// A case of reading a sheet, or of its report.
pub fn sheet_case(random: &mut Random, text: Vec<u8>, report: bool) -> Case {
    if report {
        return Case { call: Call::Report, lent: Buffers { text, out: vec![UNTOUCHED; REPORT_SLICE], ..Buffers::default() } };
    }
    let lent = Buffers { text, tree: words(random, TREE_SLICE), matrix: words(random, MATRIX_SLICE), result: longs(random, 3), ..Buffers::default() };
    Case { call: Call::ReadSheet, lent }
}

/// A sheet of exactly the most bytes, or as near as rows of this size come.
pub fn longest_sheet(random: &mut Random, n: usize, c: usize) -> Vec<u8> {
    let table = tree(random, n);
    let mut states: Vec<u16> = (0..n * c).map(|_| random.below(10) as u16).collect();
    let mut spare = MOST_BYTES - sheet(n, c, &table, &states, None).len();
    for state in &mut states {
        let more = spare.min(3);
        *state = match more {
            0 => *state,
            more => random.between(10usize.pow(more as u32), 10usize.pow(more as u32 + 1) - 1) as u16,
        };
        spare -= more;
    }
    sheet(n, c, &table, &states, None)
}

pub fn damage_sheet_case(random: &mut Random, case: &mut Case) {
    damage_length(random, case);
}
