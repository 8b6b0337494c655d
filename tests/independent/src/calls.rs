//! The calls about trees and matrices, with the lists of parameters of the C functions. Each looks for its refusals before it writes anything.
use crate::ranges::Range;
use crate::trees::Tree;
use crate::{Answer, Refusal, refuse};

pub const HIGHEST_STATE: u16 = 9999;
pub const LONGEST_KEPT: u32 = 9999 * 509;

/// What the first pass has for a node.
#[derive(Clone, Copy, Default)]
struct Entry {
    range: Range,
    length: u32,
}

impl Entry {
    fn of(state: u16) -> Entry {
        Entry { range: Range::of(state), length: 0 }
    }

    /// A node's entry, from those of its descendants.
    fn above([one, other]: [Entry; 2]) -> Entry {
        let (range, cost) = one.range.join(other.range);
        Entry { range, length: one.length + other.length + cost }
    }
}

/// Length, m and g.
#[derive(Clone, Copy, Default)]
pub struct Scores {
    pub length: u32,
    pub m: u32,
    pub g: u32,
}

impl Scores {
    pub fn ci(&self) -> Option<(u32, u32)> {
        if self.length == 0 { None } else { Some((self.m, self.length)) }
    }

    pub fn ri(&self) -> Option<(u32, u32)> {
        if self.g == self.m || self.g < self.length { None } else { Some((self.g - self.length, self.g - self.m)) }
    }

    fn seven(&self) -> [u32; 7] {
        let (ci, ri) = (self.ci().unwrap_or((0, 0)), self.ri().unwrap_or((0, 0)));
        [self.length, self.m, self.g, ci.0, ci.1, ri.0, ri.1]
    }
}

// ---- refusals

/// 1, then 2: each slice has the length it has, and the one that is asked. The sizes as machine words.
fn sizes<const K: usize>(n: u64, c: u64, lengths: impl Fn(usize, usize) -> [(usize, usize); K]) -> Result<(usize, usize), Refusal> {
    if !(3..=256).contains(&n) || !(1..=512).contains(&c) {
        return refuse(1, 0);
    }
    let (n, c) = (n as usize, c as usize);
    match lengths(n, c).iter().position(|(has, asked)| has != asked) {
        Some(slice) => refuse(2, slice + 1),
        None => Ok((n, c)),
    }
}

/// The same for tree, matrix and the three slices of a kept table, which have these lengths.
fn table_sizes(n: u64, c: u64, [tree, matrix, low, high, lengths]: [usize; 5]) -> Result<(usize, usize), Refusal> {
    sizes(n, c, |n, c| {
        let kept = (n - 2) * c;
        [(tree, 2 * n - 2), (matrix, n * c), (low, kept), (high, kept), (lengths, kept)]
    })
}

/// 7 in all cells.
fn all_states(matrix: &[u16]) -> Result<(), Refusal> {
    match matrix.iter().position(|&state| state > HIGHEST_STATE) {
        Some(cell) => refuse(7, cell + 1),
        None => Ok(()),
    }
}

/// 8 for a number that is to be 1 to `most`.
fn numbered(number: u64, most: usize) -> Result<usize, Refusal> {
    if number == 0 || number > most as u64 { refuse(8, 0) } else { Ok(number as usize) }
}

/// A character's cells: what they hold, taxon 1 first, or 7.
pub(crate) fn states_of(c: usize, character: usize, matrix: &[u16]) -> Result<Vec<u16>, Refusal> {
    let states: Vec<u16> = matrix.iter().skip(character - 1).step_by(c).copied().collect();
    match states.iter().position(|&state| state > HIGHEST_STATE) {
        Some(row) => refuse(7, row * c + character),
        None => Ok(states),
    }
}

// ---- passes

/// The first pass over one character: the entry of every node, taxa included.
fn first_pass(tree: &Tree, states: &[u16], entries: &mut [Entry]) {
    for (taxon, &state) in states.iter().enumerate() {
        entries[taxon + 1] = Entry::of(state);
    }
    for step in &tree.upward {
        let [node, one, other] = step.map(usize::from);
        entries[node] = Entry::above([entries[one], entries[other]]);
    }
}

fn length_at(tree: &Tree, states: &[u16], top: Entry) -> u32 {
    top.length + top.range.distance(states[tree.root - 1])
}

fn scores(tree: &Tree, states: &[u16], top: Entry) -> Scores {
    let root = states[tree.root - 1];
    let (lowest, highest) = states.iter().fold((root, root), |(low, high), &state| (low.min(state), high.max(state)));
    Scores {
        length: length_at(tree, states, top),
        m: u32::from(highest - lowest),
        g: states.iter().map(|&state| u32::from(state.abs_diff(root))).sum(),
    }
}

/// The second pass: the final range of each interior node, n+1 first.
fn second_pass(tree: &Tree, states: &[u16], entries: &[Entry], mut found: impl FnMut(usize, Range)) {
    let mut above = vec![Range::default(); entries.len()];
    above[tree.top] = Range::of(states[tree.root - 1]);
    for &node in &tree.downward {
        let [one, other] = tree.descendants[node];
        let (a, b, up) = (entries[one].range, entries[other].range, above[node]);
        above[one] = b.join(up).0;
        above[other] = a.join(up).0;
        found(node - tree.n - 1, Range::middle(a, b, up));
    }
}

// ---- afresh

/// The slices of one character, n-2 entries each.
pub struct Found<'a> {
    pub first_low: &'a mut [u16],
    pub first_high: &'a mut [u16],
    pub subtree: &'a mut [u32],
    pub final_low: &'a mut [u16],
    pub final_high: &'a mut [u16],
    pub states: &'a mut [u16],
}

/// Everything about one character of an accepted tree.
pub(crate) fn describe(tree: &Tree, states: &[u16], deltran: bool, found: Found) -> Scores {
    let n = tree.n;
    let mut entries = vec![Entry::default(); 2 * n - 1];
    first_pass(tree, states, &mut entries);
    for (at, entry) in entries[n + 1..].iter().enumerate() {
        found.first_low[at] = entry.range.low;
        found.first_high[at] = entry.range.high;
        found.subtree[at] = entry.length;
    }
    second_pass(tree, states, &entries, |at, range| {
        found.final_low[at] = range.low;
        found.final_high[at] = range.high;
    });
    for &node in &tree.downward {
        let ancestor = tree.ancestor[node];
        let state = if ancestor > n { found.states[ancestor - n - 1] } else { states[ancestor - 1] };
        let at = node - n - 1;
        let range = if deltran { Range { low: found.final_low[at], high: found.final_high[at] } } else { entries[node].range };
        found.states[at] = range.nearest(state);
    }
    scores(tree, states, entries[tree.top])
}

#[allow(clippy::too_many_arguments)]
pub fn character(n: u64, c: u64, character: u64, deltran: bool, tree: &[u16], matrix: &[u16], found: Found, result: &mut [u32]) -> Answer {
    let (n, c) = sizes(n, c, |n, c| {
        [
            (tree.len(), 2 * n - 2),
            (matrix.len(), n * c),
            (found.first_low.len(), n - 2),
            (found.first_high.len(), n - 2),
            (found.subtree.len(), n - 2),
            (found.final_low.len(), n - 2),
            (found.final_high.len(), n - 2),
            (found.states.len(), n - 2),
            (result.len(), 7),
        ]
    })?;
    let tree = Tree::accept(n, tree)?;
    let character = numbered(character, c)?;
    let states = states_of(c, character, matrix)?;

    let scores = describe(&tree, &states, deltran, found);
    result.copy_from_slice(&scores.seven());
    Ok(scores.length)
}

/// The scores of the whole tree.
pub(crate) fn tree_scores(tree: &Tree, c: usize, matrix: &[u16]) -> Scores {
    let mut entries = vec![Entry::default(); 2 * tree.n - 1];
    let mut states = vec![0; tree.n];
    let mut total = Scores::default();
    for character in 0..c {
        for (state, row) in states.iter_mut().zip(matrix.chunks_exact(c)) {
            *state = row[character];
        }
        first_pass(tree, &states, &mut entries);
        let one = scores(tree, &states, entries[tree.top]);
        total.length += one.length;
        total.m += one.m;
        total.g += one.g;
    }
    total
}

pub fn tree(n: u64, c: u64, tree: &[u16], matrix: &[u16], result: &mut [u32]) -> Answer {
    let (n, c) = sizes(n, c, |n, c| [(tree.len(), 2 * n - 2), (matrix.len(), n * c), (result.len(), 7)])?;
    let tree = Tree::accept(n, tree)?;
    all_states(matrix)?;
    let scores = tree_scores(&tree, c, matrix);
    result.copy_from_slice(&scores.seven());
    Ok(scores.length)
}

// ---- the kept table

pub fn build(n: u64, c: u64, tree: &[u16], matrix: &[u16], low: &mut [u16], high: &mut [u16], lengths: &mut [u32]) -> Answer {
    let (n, c) = table_sizes(n, c, [tree.len(), matrix.len(), low.len(), high.len(), lengths.len()])?;
    let tree = Tree::accept(n, tree)?;
    all_states(matrix)?;

    let mut entries = vec![Entry::default(); 2 * n - 1];
    let mut states = vec![0; n];
    for character in 0..c {
        for (state, row) in states.iter_mut().zip(matrix.chunks_exact(c)) {
            *state = row[character];
        }
        first_pass(&tree, &states, &mut entries);
        let from = character * (n - 2);
        for (at, entry) in entries[n + 1..].iter().enumerate() {
            low[from + at] = entry.range.low;
            high[from + at] = entry.range.high;
            lengths[from + at] = entry.length;
        }
    }
    Ok(0)
}

/// The three slices of a table as one character's part of it is read.
#[derive(Clone, Copy)]
struct Part<'a> {
    n: usize,
    from: usize,
    low: &'a [u16],
    high: &'a [u16],
    lengths: &'a [u32],
}

impl Part<'_> {
    fn entry(&self, node: usize) -> Entry {
        let at = self.from + node - self.n - 1;
        Entry { range: Range { low: self.low[at], high: self.high[at] }, length: self.lengths[at] }
    }

    /// 10
    fn refused(&self, node: usize) -> bool {
        let Entry { range, length } = self.entry(node);
        range.low > range.high || range.high > HIGHEST_STATE || length > LONGEST_KEPT
    }

    /// 10 in all entries of the character.
    fn look(&self) -> Result<(), Refusal> {
        match (self.n + 1..=2 * self.n - 2).find(|&node| self.refused(node)) {
            Some(node) => refuse(10, node),
            None => Ok(()),
        }
    }
}

#[allow(clippy::too_many_arguments)]
pub fn correct(
    n: u64,
    c: u64,
    taxon: u64,
    character: u64,
    state: u16,
    tree: &[u16],
    matrix: &mut [u16],
    low: &mut [u16],
    high: &mut [u16],
    lengths: &mut [u32],
) -> Answer {
    let (n, c) = table_sizes(n, c, [tree.len(), matrix.len(), low.len(), high.len(), lengths.len()])?;
    let tree = Tree::accept(n, tree)?;
    let (taxon, character) = (numbered(taxon, n)?, numbered(character, c)?);
    let mut states = states_of(c, character, matrix)?;
    if state > HIGHEST_STATE {
        return refuse(9, 0);
    }
    let path = tree.path(taxon);
    let from = (character - 1) * (n - 2);
    // 10: the other descendant of each node on the path, if it is interior
    let part = Part { n, from, low, high, lengths };
    let mut wrong = None;
    let mut came = taxon;
    for &node in &path {
        let [one, other] = tree.descendants[node];
        let beside = if one == came { other } else { one };
        if beside > n && part.refused(beside) && wrong.is_none_or(|lowest| beside < lowest) {
            wrong = Some(beside);
        }
        came = node;
    }
    if let Some(node) = wrong {
        return refuse(10, node);
    }

    matrix[(taxon - 1) * c + character - 1] = state;
    states[taxon - 1] = state;
    for &node in &path {
        let part = Part { n, from, low, high, lengths };
        let entry = Entry::above(tree.descendants[node].map(|below| if below > n { part.entry(below) } else { Entry::of(states[below - 1]) }));
        let at = from + node - n - 1;
        low[at] = entry.range.low;
        high[at] = entry.range.high;
        lengths[at] = entry.length;
    }
    Ok(path.len() as u32)
}

pub fn kept_length(n: u64, c: u64, tree: &[u16], matrix: &[u16], low: &[u16], high: &[u16], lengths: &[u32]) -> Answer {
    let (n, c) = table_sizes(n, c, [tree.len(), matrix.len(), low.len(), high.len(), lengths.len()])?;
    let tree = Tree::accept(n, tree)?;
    all_states(matrix)?;
    let part = |character: usize| Part { n, from: (character - 1) * (n - 2), low, high, lengths };
    for character in 1..=c {
        part(character).look()?;
    }
    let mut total = 0;
    for character in 1..=c {
        let top = part(character).entry(tree.top);
        total += top.length + top.range.distance(matrix[(tree.root - 1) * c + character - 1]);
    }
    Ok(total)
}

#[allow(clippy::too_many_arguments)]
pub fn kept_character(
    n: u64,
    c: u64,
    character: u64,
    tree: &[u16],
    matrix: &[u16],
    low: &[u16],
    high: &[u16],
    lengths: &[u32],
    final_low: &mut [u16],
    final_high: &mut [u16],
) -> Answer {
    let (n, c) = sizes(n, c, |n, c| {
        let kept = (n - 2) * c;
        [
            (tree.len(), 2 * n - 2),
            (matrix.len(), n * c),
            (low.len(), kept),
            (high.len(), kept),
            (lengths.len(), kept),
            (final_low.len(), n - 2),
            (final_high.len(), n - 2),
        ]
    })?;
    let tree = Tree::accept(n, tree)?;
    let character = numbered(character, c)?;
    let states = states_of(c, character, matrix)?;
    let part = Part { n, from: (character - 1) * (n - 2), low, high, lengths };
    part.look()?;

    let mut entries = vec![Entry::default(); 2 * n - 1];
    for (taxon, &state) in states.iter().enumerate() {
        entries[taxon + 1] = Entry::of(state);
    }
    for &node in &tree.downward {
        entries[node] = part.entry(node);
    }
    second_pass(&tree, &states, &entries, |at, range| {
        final_low[at] = range.low;
        final_high[at] = range.high;
    });
    Ok(length_at(&tree, &states, entries[tree.top]))
}
