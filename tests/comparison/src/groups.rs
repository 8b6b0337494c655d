//! Groups of cases. Each is made from a seed alone, so that the seed is all one needs to run it again.
use crate::case::{Buffers, Call, Case, Memory};
use crate::inputs::{self, FAULTS, Fault};
use crate::random::Random;
use crate::sheet_inputs;
use independent::ways;
use std::collections::BTreeMap;

/// How often each call gave each answer: `(call, number, place of refusal 2)`; number 0 is an answer.
#[derive(Default)]
pub struct Tally {
    pub cases: usize,
    pub seen: BTreeMap<(&'static str, u32, u32), usize>,
}

impl Tally {
    fn count(&mut self, call: &Call, value: u64) {
        self.cases += 1;
        let number = (value >> 32) as u32;
        let place = if number == 2 { value as u32 } else { 0 };
        *self.seen.entry((call.name(), number, place)).or_default() += 1;
    }

    /// The same for what a report says: a refusal of its sheet, or scores.
    fn count_report(&mut self, out: &[u8]) {
        let refused = out.strip_prefix(b"refused=").unwrap_or_default();
        let number = refused.iter().take_while(|byte| byte.is_ascii_digit()).fold(0, |sum, byte| 10 * sum + u32::from(byte - b'0'));
        *self.seen.entry(("report says", number, 0)).or_default() += 1;
    }

    pub fn add(&mut self, other: Tally) {
        self.cases += other.cases;
        for (key, count) in other.seen {
            *self.seen.entry(key).or_default() += count;
        }
    }

    pub fn has(&self, call: &str, number: u32, place: u32) -> bool {
        self.seen.iter().any(|((name, n, p), _)| *name == call && *n == number && *p == place)
    }
}

/// One case compared: the number and the slices after it.
pub fn compare(case: &Case, memory: Memory, tally: &mut Tally) -> Result<(u64, Buffers), String> {
    let (value, after) = case.compare(memory)?;
    tally.count(&case.call, value);
    if case.call == Call::Report && value >> 32 == 0 {
        tally.count_report(&after.out);
    }
    Ok((value, after))
}

/// A group of cases.
#[derive(Clone, Copy, Debug, PartialEq, Eq)]
pub enum Group {
    /// Good trees and matrices, all six calls about them.
    Good,
    /// One fault or several in a case: the first that applies is given.
    Damaged,
    /// Tables that nobody built, with and without refusal 10.
    Foreign,
    /// A run of corrections, refused ones among them, each against a table built afresh.
    Corrections,
    /// Sheets good and damaged, read and reported.
    Sheets,
    /// Small trees against every way.
    Ways,
}

pub const GROUPS: [Group; 6] = [Group::Good, Group::Damaged, Group::Foreign, Group::Corrections, Group::Sheets, Group::Ways];

/// Runs one group with one seed. What goes wrong is told with both.
pub fn run(group: Group, seed: u64, memory: Memory, tally: &mut Tally) -> Result<(), String> {
    let random = &mut Random::new(seed ^ (group as u64) << 56);
    let outcome = match group {
        Group::Good => good(random, memory, tally),
        Group::Damaged => damaged(random, memory, tally),
        Group::Foreign => foreign(random, memory, tally),
        Group::Corrections => {
            let (n, c) = inputs::sizes(random);
            let steps = if n * c > 2000 { 8 } else { 30 };
            corrections(random, n, c, steps, memory, tally)
        }
        Group::Sheets => sheets(random, memory, tally),
        Group::Ways => small(random, memory, tally),
    };
    outcome.map_err(|fault| format!("group {group:?}, seed {seed}: {fault}"))
}

fn good(random: &mut Random, memory: Memory, tally: &mut Tally) -> Result<(), String> {
    let (n, c) = inputs::sizes(random);
    let (tree, matrix) = (inputs::tree(random, n), inputs::matrix(random, n, c));
    let mut lengths = Vec::new();
    for kind in 0..6 {
        let case = inputs::around(random, kind, n, c, tree.clone(), matrix.clone());
        let (value, _) = compare(&case, memory, tally)?;
        if value >> 32 != 0 {
            return Err(format!("a good case is refused: {value:#x}\n{:?}\n{:?}", case.call, case.lent));
        }
        if kind == 1 || kind == 4 {
            lengths.push(value);
        }
    }
    if lengths[0] != lengths[1] { Err("afresh and kept length differ".to_string()) } else { Ok(()) }
}

fn damaged(random: &mut Random, memory: Memory, tally: &mut Tally) -> Result<(), String> {
    let (n, c) = inputs::sizes(random);
    let kind = random.below(6);
    let mut case = inputs::good(random, kind, n, c);
    if random.one_in(2) {
        let fault = random.pick(&FAULTS);
        inputs::damage(random, fault, &mut case);
    } else {
        // several at once: those that are looked for first are rarer, so that each pair comes in both orders
        for fault in FAULTS {
            let rarely = match fault {
                Fault::Size | Fault::Length => 12,
                Fault::Tree => 6,
                _ => 3,
            };
            if random.one_in(rarely) {
                inputs::damage(random, fault, &mut case);
            }
        }
    }
    compare(&case, memory, tally).map(|_| ())
}

fn foreign(random: &mut Random, memory: Memory, tally: &mut Tally) -> Result<(), String> {
    let (n, c) = inputs::sizes(random);
    let kind = random.between(3, 5);
    let mut case = inputs::good(random, kind, n, c);
    inputs::foreign(random, &mut case.lent);
    if random.one_in(3) {
        let fault = random.pick(&[Fault::State, Fault::Entry, Fault::Entry, Fault::NewState, Fault::Tree]);
        inputs::damage(random, fault, &mut case);
    }
    let (_, after) = compare(&case, memory, tally)?;
    // corrections one after another, each on what the last has left
    if let Call::Correct { n, c, .. } = case.call {
        case.lent = after;
        for _ in 0..4 {
            case.call = Call::Correct {
                n,
                c,
                taxon: random.between(1, n.min(300) as usize + 1) as u64,
                character: random.between(1, c.min(600) as usize + 1) as u64,
                state: random.below(10_001) as u16,
            };
            case.lent = compare(&case, memory, tally)?.1;
        }
        let mut asked = case.clone();
        asked.call = Call::KeptLength { n, c };
        compare(&asked, memory, tally)?;
    }
    Ok(())
}

/// A table is built, and cells are corrected: after each the library's table is one that is built afresh, by the library and by the other.
pub fn corrections(random: &mut Random, n: usize, c: usize, steps: usize, memory: Memory, tally: &mut Tally) -> Result<(), String> {
    let tree = inputs::tree(random, n);
    let matrix = inputs::matrix(random, n, c);
    let building = inputs::around(random, 2, n, c, tree, matrix);
    let mut now = compare(&building, memory, tally)?.1;
    let (n, c) = (n as u64, c as u64);
    for step in 0..steps {
        let mut taxon = random.between(1, n as usize) as u64;
        let mut character = random.between(1, c as usize) as u64;
        let cell = (taxon - 1) * c + character - 1;
        let mut state = match random.below(6) {
            0 => now.matrix[cell as usize],
            1 => random.below(10_000) as u16,
            2 => random.pick(&[0, 9999]),
            _ => now.matrix[random.below(n as usize) * c as usize + character as usize - 1],
        };
        match random.below(24) {
            0 => taxon = random.pick(&[0, n + 1, u64::MAX, (1 << 32) + 1]),
            1 => character = random.pick(&[0, c + 1, u64::MAX, (1 << 32) + 1]),
            2 => state = random.pick(&[10_000, 65_535]),
            _ => {}
        }
        let case = Case { call: Call::Correct { n, c, taxon, character, state }, lent: now };
        let (value, after) = compare(&case, memory, tally)?;
        let before = case.lent;
        // the matrix holds exactly the accepted corrections
        let mut wanted = before.matrix.clone();
        if value >> 32 == 0 {
            wanted[cell as usize] = state;
        }
        if wanted != after.matrix {
            return Err(format!("step {step}: the matrix is another"));
        }
        let mut afresh = Case { call: Call::Build { n, c }, lent: after.clone() };
        afresh.lent.low.fill(12_345);
        afresh.lent.high.fill(12_345);
        afresh.lent.lengths.fill(123_456_789);
        let (_, built) = compare(&afresh, memory, tally)?;
        if built != after {
            return Err(format!("step {step}: {:?} leaves a table that is not one built afresh\n{after:?}afresh:\n{built:?}", case.call));
        }
        if step % 5 == 4 {
            let (kept, _) = compare(&Case { call: Call::KeptLength { n, c }, lent: after.clone() }, memory, tally)?;
            let mut fresh = Case { call: Call::Tree { n, c }, lent: after.clone() };
            fresh.lent.result = vec![1; 7];
            if compare(&fresh, memory, tally)?.0 != kept {
                return Err(format!("step {step}: kept and fresh length differ"));
            }
            let character = random.between(1, c as usize) as u64;
            let mut asked = Case { call: Call::KeptCharacter { n, c, character }, lent: after.clone() };
            asked.lent.final_low = vec![1; n as usize - 2];
            asked.lent.final_high = vec![2; n as usize - 2];
            compare(&asked, memory, tally)?;
        }
        now = after;
    }
    Ok(())
}

fn sheets(random: &mut Random, memory: Memory, tally: &mut Tally) -> Result<(), String> {
    let mut text = sheet_inputs::good_sheet(random);
    for _ in 0..random.pick(&[0, 0, 1, 1, 1, 2, 3]) {
        sheet_inputs::damage_sheet(random, &mut text);
    }
    let mut reading = sheet_inputs::sheet_case(random, text.clone(), false);
    let mut reporting = sheet_inputs::sheet_case(random, text, true);
    if random.one_in(10) {
        sheet_inputs::damage_sheet_case(random, &mut reading);
        sheet_inputs::damage_sheet_case(random, &mut reporting);
    }
    compare(&reading, memory, tally)?;
    if memory == Memory::Fenced || reporting.lent.text.len() < 2000 {
        compare(&reporting, memory, tally)?;
    }
    Ok(())
}

fn small(random: &mut Random, memory: Memory, tally: &mut Tally) -> Result<(), String> {
    let n = random.pick(&[3, 4, 4, 5, 5, 5, 6]);
    let c = random.between(1, 3);
    let tree = inputs::tree(random, n);
    let spread = random.between(1, 5);
    let from = random.pick(&[0, 1, 2, 500, 10_000 - spread]);
    let matrix: Vec<u16> = (0..n * c).map(|_| (from + random.below(spread)) as u16).collect();
    every_way(random, n, c, &tree, &matrix, memory, tally)
}

/// All characters of a small tree against every way of giving integers to its interior nodes.
pub fn every_way(random: &mut Random, n: usize, c: usize, tree: &[u16], matrix: &[u16], memory: Memory, tally: &mut Tally) -> Result<(), String> {
    let mut total = 0;
    let building = inputs::around(random, 2, n, c, tree.to_vec(), matrix.to_vec());
    let table = compare(&building, memory, tally)?.1;
    for character in 1..=c {
        let states: Vec<u16> = (0..n).map(|row| matrix[row * c + character - 1]).collect();
        let shortest = ways::shortest(tree, &states);
        total += u64::from(shortest.length);
        let stretch = (character - 1) * (n - 2)..character * (n - 2);
        let fault = |what: &str, lent: &Buffers| Err(format!("{what} of character {character} is not what every way gives\n{lent:?}"));
        for resolve in [0, 1] {
            let mut case = inputs::around(random, 0, n, c, tree.to_vec(), matrix.to_vec());
            case.call = Call::Character { n: n as u64, c: c as u64, character: character as u64, resolve };
            let (value, after) = compare(&case, memory, tally)?;
            if value != u64::from(shortest.length) || after.result[0] != shortest.length {
                return fault("the length", &after);
            }
            if after.result[1] != ways::m(&states) || after.result[2] != ways::g(tree, &states) {
                return fault("m or g", &after);
            }
            if !same(&after.first_low, &after.first_high, &shortest.used_below) || after.subtree != shortest.subtree {
                return fault("the first pass", &after);
            }
            if !same(&after.final_low, &after.final_high, &shortest.used) {
                return fault("a final range", &after);
            }
            let way: Vec<i32> = states.iter().chain(&after.states).map(|&state| state.into()).collect();
            if ways::length_of(tree, &way) != shortest.length {
                return fault("the reconstruction", &after);
            }
            for (at, &state) in after.states.iter().enumerate() {
                let above = way[usize::from(tree[n + at]) - 1];
                let allowed = if resolve == 0 { &shortest.used_below[at] } else { &shortest.used[at] };
                let nearest = allowed.iter().min_by_key(|state| state.abs_diff(above)).expect("a node has states");
                if i32::from(state) != *nearest {
                    return fault("a chosen state", &after);
                }
            }
        }
        let kept = (&table.low[stretch.clone()], &table.high[stretch.clone()], &table.lengths[stretch]);
        if !same(kept.0, kept.1, &shortest.used_below) || *kept.2 != shortest.subtree {
            return fault("the kept table", &table);
        }
        let mut asked = Case { call: Call::KeptCharacter { n: n as u64, c: c as u64, character: character as u64 }, lent: table.clone() };
        asked.lent.final_low = vec![60_000; n - 2];
        asked.lent.final_high = vec![60_000; n - 2];
        let (value, after) = compare(&asked, memory, tally)?;
        if value != u64::from(shortest.length) || !same(&after.final_low, &after.final_high, &shortest.used) {
            return fault("what is asked of the kept table", &after);
        }
    }
    let asked = Case { call: Call::KeptLength { n: n as u64, c: c as u64 }, lent: table };
    let case = inputs::around(random, 1, n, c, tree.to_vec(), matrix.to_vec());
    if compare(&asked, memory, tally)?.0 != total || compare(&case, memory, tally)?.0 != total {
        return Err("the tree's length is not the sum of the least lengths".to_string());
    }
    Ok(())
}

/// Ranges that hold exactly these states.
fn same(low: &[u16], high: &[u16], states: &[Vec<i32>]) -> bool {
    low.len() == states.len()
        && low.iter().zip(high).zip(states).all(|((&low, &high), states)| (i32::from(low)..=i32::from(high)).eq(states.iter().copied()))
}
