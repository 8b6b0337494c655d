//! Trees, matrices and tables, good and damaged. Sheets are in `sheet_inputs`.
use crate::case::{Buffers, Call, Case};
use crate::random::Random;

/// n and c: mostly small, sometimes large, and sometimes at the limits.
pub fn sizes(random: &mut Random) -> (usize, usize) {
    let n = match random.below(40) {
        0..=27 => random.between(3, 8),
        28..=35 => random.between(9, 40),
        36..=38 => random.between(41, 255),
        _ => 256,
    };
    let c = match random.below(40) {
        0..=27 => random.between(1, 4),
        28..=35 => random.between(5, 20),
        36..=38 => random.between(21, 100),
        _ => random.pick(&[511, 512]),
    };
    // the largest of both together are rare, and have tests of their own
    if n * c > 20_000 && !random.one_in(8) { (n, 1 + c % 20) } else { (n, c) }
}

/// A tree table that is accepted: any root, any shape, interior nodes numbered in any order.
pub fn tree(random: &mut Random, n: usize) -> Vec<u16> {
    let shape = random.below(4);
    shaped_tree(random, n, shape)
}

/// Shape 0 is a comb, 1 is balanced, others are joined at random.
pub fn shaped_tree(random: &mut Random, n: usize, shape: usize) -> Vec<u16> {
    let mut table = vec![0; 2 * n - 2];
    let mut taxa: Vec<usize> = (1..=n).collect();
    let mut interior: Vec<usize> = (n + 1..=2 * n - 2).collect();
    random.shuffle(&mut taxa);
    random.shuffle(&mut interior);
    let root = taxa.pop().expect("there are taxa");
    let mut parts = std::collections::VecDeque::from(taxa);
    for node in interior {
        let (one, other) = match shape {
            0 => (parts.pop_front(), parts.pop_front()),
            1 => (parts.pop_back(), parts.pop_back()),
            _ => {
                let one = parts.swap_remove_back(random.below(parts.len()));
                (one, parts.swap_remove_back(random.below(parts.len())))
            }
        };
        for below in [one, other] {
            table[below.expect("two parts are left") - 1] = node as u16;
        }
        parts.push_front(node);
    }
    table[parts[0] - 1] = root as u16;
    table
}

/// A state, of one of several kinds of matrix.
fn state(random: &mut Random, kind: usize) -> u16 {
    let state = match kind {
        0 => random.below(2),
        1 => random.below(5),
        2 => 3 * random.below(4),
        3 => random.pick(&[0, 9999]),
        4 => random.between(9995, 9999),
        5 => 7,
        _ => random.below(10_000),
    };
    state as u16
}

pub fn matrix(random: &mut Random, n: usize, c: usize) -> Vec<u16> {
    let kinds: Vec<usize> = (0..c).map(|_| random.below(9)).collect();
    (0..n * c).map(|cell| state(random, kinds[cell % c])).collect()
}

/// A slice of words that are no answer.
pub(crate) fn words(random: &mut Random, len: usize) -> Vec<u16> {
    let from = random.bits() as u16;
    (0..len).map(|at| from ^ (at as u16).wrapping_mul(0x9E37)).collect()
}

pub(crate) fn longs(random: &mut Random, len: usize) -> Vec<u32> {
    let from = random.bits() as u32;
    (0..len).map(|at| from ^ (at as u32).wrapping_mul(0x9E37_79B9)).collect()
}

/// A table that nobody built: entries that refusal 10 lets pass, or entries of a built table here and there.
pub fn foreign(random: &mut Random, lent: &mut Buffers) {
    let rarely = random.pick(&[1, 1, 3, 10]);
    let wide = random.one_in(2);
    for at in 0..lent.low.len() {
        if !random.one_in(rarely) {
            continue;
        }
        let (a, b) = if wide { (random.below(10_000), random.below(10_000)) } else { (random.below(8), random.below(8)) };
        lent.low[at] = a.min(b) as u16;
        lent.high[at] = a.max(b) as u16;
        lent.lengths[at] = match random.below(4) {
            0 => 5_089_491,
            1 => random.below(5_089_492) as u32,
            _ => random.below(50) as u32,
        };
    }
}

/// A good case of a call about a tree and a matrix; `kind` counts from 0 in the header's order.
pub fn good(random: &mut Random, kind: usize, n: usize, c: usize) -> Case {
    let (tree, matrix) = (tree(random, n), matrix(random, n, c));
    around(random, kind, n, c, tree, matrix)
}

/// The same for a given tree and matrix.
pub fn around(random: &mut Random, kind: usize, n: usize, c: usize, tree: Vec<u16>, matrix: Vec<u16>) -> Case {
    let character = random.between(1, c) as u64;
    let taxon = random.between(1, n) as u64;
    let mut lent = Buffers { tree, matrix, ..Buffers::default() };
    let kept = (n - 2) * c;
    if (2..=5).contains(&kind) {
        lent.low = words(random, kept);
        lent.high = words(random, kept);
        lent.lengths = longs(random, kept);
    }
    if (3..=5).contains(&kind) {
        let built = Case { call: Call::Build { n: n as u64, c: c as u64 }, lent };
        lent = built.expected().1;
    }
    let (n, c) = (n as u64, c as u64);
    let call = match kind {
        0 => {
            let interior = n as usize - 2;
            lent.first_low = words(random, interior);
            lent.first_high = words(random, interior);
            lent.subtree = longs(random, interior);
            lent.final_low = words(random, interior);
            lent.final_high = words(random, interior);
            lent.states = words(random, interior);
            lent.result = longs(random, 7);
            Call::Character { n, c, character, resolve: random.pick(&[0, 1, 0, 1, 2, 128, 255]) }
        }
        1 => {
            lent.result = longs(random, 7);
            Call::Tree { n, c }
        }
        2 => Call::Build { n, c },
        3 => {
            let kind = random.below(9);
            Call::Correct { n, c, taxon, character, state: state(random, kind) }
        }
        4 => Call::KeptLength { n, c },
        _ => {
            lent.final_low = words(random, n as usize - 2);
            lent.final_high = words(random, n as usize - 2);
            Call::KeptCharacter { n, c, character }
        }
    };
    Case { call, lent }
}

// ---- damage

const ODD_SIZES: [u64; 14] = [0, 1, 2, 257, 258, 513, 514, 65_536, 65_540, 1 << 31, (1 << 32) + 4, 1 << 63, (1 << 63) + 3, u64::MAX];

/// Another size: outside the limits, or one more or less.
fn other_size(random: &mut Random, size: u64) -> u64 {
    match random.below(4) {
        0 => size.wrapping_add(1),
        1 => size.wrapping_sub(1),
        _ => random.pick(&ODD_SIZES),
    }
}

/// A number that no taxon or character has, mostly.
fn other_number(random: &mut Random, most: u64) -> u64 {
    match random.below(5) {
        0 => 0,
        1 => most.wrapping_add(1),
        2 => most.wrapping_add(2),
        3 => random.pick(&ODD_SIZES),
        _ => (1 << 32) + 1,
    }
}

/// A lent slice, whatever its entries are.
trait Slice {
    /// Gives it another length.
    fn other_length(&mut self, random: &mut Random);
}

impl<T: Copy + Default> Slice for Vec<T> {
    fn other_length(&mut self, random: &mut Random) {
        match random.below(4) {
            0 => self.push(T::default()),
            1 => drop(self.pop()),
            2 => self.clear(),
            _ => self.resize(self.len() + random.between(1, 9), T::default()),
        }
    }
}

pub(crate) fn damage_length(random: &mut Random, case: &mut Case) {
    let Buffers { tree, matrix, first_low, first_high, subtree, final_low, final_high, states, low, high, lengths, result, out, .. } = &mut case.lent;
    let mut slices: Vec<&mut dyn Slice> = match case.call {
        Call::Character { .. } => vec![tree, matrix, first_low, first_high, subtree, final_low, final_high, states, result],
        Call::Tree { .. } | Call::ReadSheet => vec![tree, matrix, result],
        Call::Build { .. } | Call::Correct { .. } | Call::KeptLength { .. } => vec![tree, matrix, low, high, lengths],
        Call::KeptCharacter { .. } => vec![tree, matrix, low, high, lengths, final_low, final_high],
        Call::Report => return out.other_length(random),
    };
    let damaged = random.below(slices.len());
    slices[damaged].other_length(random);
}

/// Something wrong with a tree table; now and then it stays a tree.
pub fn damage_tree(random: &mut Random, n: usize, table: &mut [u16]) {
    if table.len() < 4 {
        return;
    }
    let nodes = table.len();
    let any = random.below(nodes);
    let root = table.iter().position(|&ancestor| ancestor == 0).unwrap_or(0);
    match random.below(9) {
        // the root is another node, as an interior one
        8 => table.swap(root, any),
        // no root, or another one
        0 => table[root] = random.between(0, nodes + 1) as u16,
        // two roots
        1 => table[any] = 0,
        // an entry that is none
        2 => table[any] = random.pick(&[nodes + 1, nodes + 2, 512, 65_535]) as u16,
        // a taxon
        3 => table[any] = random.between(1, n.clamp(1, 256)) as u16,
        // itself
        4 => table[any] = any as u16 + 1,
        // any node
        5 => table[any] = random.between(1, nodes) as u16,
        // a branch hung below itself: the counts stay right, and it never reaches the root
        6 => {
            let mut above = vec![any];
            while let Some(&last) = above.last() {
                let ancestor = usize::from(table[last]);
                if ancestor == 0 || ancestor > nodes || above.len() > nodes {
                    break;
                }
                above.push(ancestor - 1);
            }
            above.pop();
            if above.len() > 1 {
                let other = random.between(1, above.len() - 1);
                table.swap(any, above[other]);
            }
        }
        // two branches exchanged: a tree still, or a part that never reaches the root
        _ => table.swap(any, random.below(nodes)),
    }
}

/// States above 9999: of one character, if one is given, or of any.
pub(crate) fn damage_state(random: &mut Random, c: usize, character: Option<usize>, matrix: &mut [u16]) {
    for _ in 0..random.pick(&[1, 1, 2, 5]) {
        let at = match character {
            Some(character) => random.below(matrix.len() / c + 1) * c + character - 1,
            None => random.below(matrix.len() + 1),
        };
        if let Some(state) = matrix.get_mut(at) {
            *state = random.pick(&[10_000, 10_001, 16_384, 32_768, 65_535]);
        }
    }
}

/// Entries that refusal 10 is about, or the largest that pass: of one character's part, if one is given, or of any.
fn damage_entry(random: &mut Random, interior: usize, character: Option<usize>, lent: &mut Buffers) {
    for _ in 0..random.pick(&[1, 1, 2, 8]) {
        let at = match character {
            Some(character) => (character - 1) * interior + random.below(interior.max(1)),
            None => random.below(lent.low.len() + 1),
        };
        let (Some(low), Some(high), Some(length)) = (lent.low.get_mut(at), lent.high.get_mut(at), lent.lengths.get_mut(at)) else { continue };
        match random.below(6) {
            0 => *low = high.saturating_add(1),
            1 => *high = random.pick(&[10_000, 10_001, 65_535]),
            2 => (*low, *high) = (10_000, 10_000),
            3 => *length = random.pick(&[5_089_492, 5_089_493, u32::MAX]),
            4 => (*low, *high) = (5, 4),
            _ => (*low, *high, *length) = (9999, 9999, 5_089_491),
        }
    }
}

/// The kinds of fault in a case about a tree and a matrix, in the order in which they are looked for.
#[derive(Clone, Copy, PartialEq, Eq)]
pub enum Fault {
    Size,
    Length,
    Tree,
    Number,
    State,
    NewState,
    Entry,
}

pub const FAULTS: [Fault; 7] = [Fault::Size, Fault::Length, Fault::Tree, Fault::Number, Fault::State, Fault::NewState, Fault::Entry];

/// One fault. Where the call has no such fault, nothing is changed.
pub fn damage(random: &mut Random, fault: Fault, case: &mut Case) {
    let (had_n, had_c, had_character) = match case.call {
        Call::Character { n, c, character, .. } | Call::Correct { n, c, character, .. } | Call::KeptCharacter { n, c, character } => {
            (n, c, Some(character).filter(|character| (1..=c).contains(character)))
        }
        Call::Tree { n, c } | Call::Build { n, c } | Call::KeptLength { n, c } => (n, c, None),
        Call::ReadSheet | Call::Report => (0, 0, None),
    };
    let (had_n, had_c) = (had_n.clamp(3, 256) as usize, had_c.clamp(1, 512) as usize);
    let character = had_character.map(|character| character.min(512) as usize).filter(|_| !random.one_in(3));
    match (fault, &mut case.call) {
        (
            Fault::Size,
            Call::Character { n, c, .. }
            | Call::Tree { n, c }
            | Call::Build { n, c }
            | Call::Correct { n, c, .. }
            | Call::KeptLength { n, c }
            | Call::KeptCharacter { n, c, .. },
        ) => {
            let size = if random.one_in(2) { n } else { c };
            *size = other_size(random, *size);
        }
        (Fault::Length, _) => damage_length(random, case),
        (Fault::Tree, _) => damage_tree(random, had_n, &mut case.lent.tree),
        (Fault::Number, Call::Correct { n, c, taxon, character, .. }) => {
            if random.one_in(2) {
                *taxon = other_number(random, *n);
            } else {
                *character = other_number(random, *c);
            }
        }
        (Fault::Number, Call::Character { c, character, .. } | Call::KeptCharacter { c, character, .. }) => *character = other_number(random, *c),
        (Fault::State, _) => damage_state(random, had_c, character, &mut case.lent.matrix),
        (Fault::NewState, Call::Correct { state, .. }) => *state = random.pick(&[10_000, 10_001, 32_768, 65_535]),
        (Fault::Entry, _) => damage_entry(random, had_n - 2, character, &mut case.lent),
        _ => {}
    }
}
