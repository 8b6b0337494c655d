//! Times the library and the independent implementation in turn, in one run and on the same inputs, after comparing all that they answer. `./bench 10`
//! repeats ten times as often.
use badrumello::{REPORT_BYTES, Resolve, lent};
use independent::{calls, sheets};
use std::time::{Duration, Instant};

// ---- inputs

/// Numbers that look random, and are the same in each run.
struct Random(u64);

impl Random {
    fn below(&mut self, limit: u64) -> u64 {
        self.0 ^= self.0 << 13;
        self.0 ^= self.0 >> 7;
        self.0 ^= self.0 << 17;
        self.0 % limit
    }
}

/// Root taxon 1; the other taxa are halved again and again.
fn balanced(n: usize) -> Vec<u16> {
    fn split(from: usize, to: usize, ancestor: usize, next: &mut usize, tree: &mut [u16]) {
        if from == to {
            tree[from - 1] = ancestor as u16;
            return;
        }
        let node = *next;
        *next += 1;
        tree[node - 1] = ancestor as u16;
        let middle = (from + to) / 2;
        split(from, middle, node, next, tree);
        split(middle + 1, to, node, next, tree);
    }
    let mut tree = vec![0; 2 * n - 2];
    split(2, n, 1, &mut (n + 1), &mut tree);
    tree
}

/// Root taxon 1; each interior node has a taxon and the next interior node, whose numbers fall while those of the taxa rise. Taxon n is the deepest.
fn comb(n: usize) -> Vec<u16> {
    let mut tree = vec![0; 2 * n - 2];
    let mut ancestor = 1;
    for k in 0..n - 2 {
        let node = 2 * n - 2 - k;
        tree[node - 1] = ancestor;
        tree[k + 1] = node as u16;
        ancestor = node as u16;
    }
    tree[n - 1] = ancestor;
    tree
}

fn sheet(n: usize, c: usize, tree: &[u16], matrix: &[u16]) -> Vec<u8> {
    let numbers = |list: &[u16]| list.iter().map(u16::to_string).collect::<Vec<_>>().join(",");
    let mut text = format!("taxa={n}\ncharacters={c}\nancestors={}\n", numbers(tree));
    for row in matrix.chunks(c) {
        text += &format!("row={}\n", numbers(row));
    }
    text.into_bytes()
}

/// A tree, a matrix, and everything that a call writes.
#[derive(Clone, PartialEq, Debug)]
struct Input {
    n: usize,
    c: usize,
    tree: Vec<u16>,
    matrix: Vec<u16>,
    ends: [Vec<u16>; 5],
    subtree: Vec<u32>,
    low: Vec<u16>,
    high: Vec<u16>,
    lengths: Vec<u32>,
    column: Vec<u16>,
    result: [u32; 7],
}

impl Input {
    fn new(n: usize, c: usize, tree: Vec<u16>, random: &mut Random) -> Input {
        Input {
            n,
            c,
            tree,
            matrix: (0..n * c).map(|_| random.below(10_000) as u16).collect(),
            ends: std::array::from_fn(|_| vec![60_000; n - 2]),
            subtree: vec![4_000_000_000; n - 2],
            low: vec![60_000; (n - 2) * c],
            high: vec![60_000; (n - 2) * c],
            lengths: vec![4_000_000_000; (n - 2) * c],
            column: vec![0; n],
            result: [0; 7],
        }
    }

    /// A character's cells into the column.
    fn gather(&mut self, character: usize) {
        for (cell, row) in self.column.iter_mut().zip(self.matrix.chunks_exact(self.c)) {
            *cell = row[character - 1];
        }
    }

    /// The next correction of a round over all taxa: each has a character of its own.
    fn correction(&self, taxon: usize) -> (usize, u16) {
        let character = taxon * 37 % self.c + 1;
        (character, (self.matrix[(taxon - 1) * self.c + character - 1] + 4321) % 10_000)
    }
}

// ---- the calls of both

fn ok<T, E: std::fmt::Debug>(answer: Result<T, E>) -> T {
    answer.expect("a good input is answered")
}

/// A call on an input, by the library and by the baseline.
struct Calls {
    library: fn(&mut Input),
    baseline: fn(&mut Input),
}

const AFRESH: Calls = Calls {
    library: |i| i.result[0] = ok(lent::tree(i.n, i.c, &i.tree, &i.matrix)).length,
    baseline: |i| i.result[0] = ok(calls::tree(i.n as u64, i.c as u64, &i.tree, &i.matrix, &mut [0; 7])),
};

const RANGES: Calls = Calls {
    library: |i| {
        let [a, b, d, e, f] = &mut i.ends;
        for character in 1..=i.c {
            let found = lent::Found { first_low: a, first_high: b, subtree: &mut i.subtree, final_low: d, final_high: e, states: f };
            i.result[1] = ok(lent::character(i.n, i.c, character, Resolve::Acctran, &i.tree, &i.matrix, found)).length;
        }
    },
    baseline: |i| {
        let [a, b, d, e, f] = &mut i.ends;
        for character in 1..=i.c {
            let found = calls::Found { first_low: a, first_high: b, subtree: &mut i.subtree, final_low: d, final_high: e, states: f };
            i.result[1] = ok(calls::character(i.n as u64, i.c as u64, character as u64, false, &i.tree, &i.matrix, found, &mut [0; 7]));
        }
    },
};

const BUILD: Calls = Calls {
    library: |i| ok(lent::build(i.n, i.c, &i.tree, &i.matrix, &mut i.low, &mut i.high, &mut i.lengths)),
    baseline: |i| _ = ok(calls::build(i.n as u64, i.c as u64, &i.tree, &i.matrix, &mut i.low, &mut i.high, &mut i.lengths)),
};

/// One character's part of the table: its column is gathered, and a table of it is built in its place.
const REBUILD: Calls = Calls {
    library: |i| {
        i.gather(i.c);
        let part = (i.c - 1) * (i.n - 2)..;
        ok(lent::build(i.n, 1, &i.tree, &i.column, &mut i.low[part.clone()], &mut i.high[part.clone()], &mut i.lengths[part]));
    },
    baseline: |i| {
        i.gather(i.c);
        let part = (i.c - 1) * (i.n - 2)..;
        ok(calls::build(i.n as u64, 1, &i.tree, &i.column, &mut i.low[part.clone()], &mut i.high[part.clone()], &mut i.lengths[part]));
    },
};

/// A table of one character, c = 1, whose column is there.
const SINGLE: Calls = Calls {
    library: |i| {
        let room = i.n - 2;
        ok(lent::build(i.n, 1, &i.tree, &i.column, &mut i.low[..room], &mut i.high[..room], &mut i.lengths[..room]));
    },
    baseline: |i| {
        let room = i.n - 2;
        ok(calls::build(i.n as u64, 1, &i.tree, &i.column, &mut i.low[..room], &mut i.high[..room], &mut i.lengths[..room]));
    },
};

/// One correction of each taxon.
const CORRECT: Calls = Calls {
    library: |i| {
        for taxon in 1..=i.n {
            let (character, state) = i.correction(taxon);
            ok(lent::correct(i.n, i.c, taxon, character, state, &i.tree, &mut i.matrix, &mut i.low, &mut i.high, &mut i.lengths));
        }
    },
    baseline: |i| {
        let (n, c) = (i.n as u64, i.c as u64);
        for taxon in 1..=i.n {
            let (character, state) = i.correction(taxon);
            let character = character as u64;
            ok(calls::correct(n, c, taxon as u64, character, state, &i.tree, &mut i.matrix, &mut i.low, &mut i.high, &mut i.lengths));
        }
    },
};

/// As many corrections of taxon n alone, which is the deepest of a comb, each of another character.
const DEEPEST: Calls = Calls {
    library: |i| {
        for k in 1..=i.n {
            let (character, state) = (k * 37 % i.c + 1, (k * 77 % 10_000) as u16);
            ok(lent::correct(i.n, i.c, i.n, character, state, &i.tree, &mut i.matrix, &mut i.low, &mut i.high, &mut i.lengths));
        }
    },
    baseline: |i| {
        let (n, c) = (i.n as u64, i.c as u64);
        for k in 1..=i.n {
            let (character, state) = ((k * 37 % i.c + 1) as u64, (k * 77 % 10_000) as u16);
            ok(calls::correct(n, c, n, character, state, &i.tree, &mut i.matrix, &mut i.low, &mut i.high, &mut i.lengths));
        }
    },
};

// ---- times

/// The best times of both, taken in turn.
fn race(rounds: usize, mut library: impl FnMut(), mut baseline: impl FnMut()) -> [Duration; 2] {
    let mut best = [Duration::MAX; 2];
    for _ in 0..rounds {
        let began = Instant::now();
        library();
        best[0] = best[0].min(began.elapsed());
        let began = Instant::now();
        baseline();
        best[1] = best[1].min(began.elapsed());
    }
    best
}

/// The lines of one kind of tree, from the smallest size to the largest.
struct Lines {
    tree: &'static str,
    before: Vec<(&'static str, f64)>,
}

impl Lines {
    /// One line; a unit is what the time should grow with. Answers the microseconds of the library and the baseline for one call.
    fn put(&mut self, (n, c): (usize, usize), what: &'static str, times: [Duration; 2], calls: usize, units: usize) -> [f64; 2] {
        let us = times.map(|time| time.as_nanos() as f64 / 1e3 / calls as f64);
        let ns = us.map(|us| us * 1e3 / units as f64);
        let growth = match self.before.iter_mut().find(|(name, _)| *name == what) {
            Some((_, before)) => format!("{:.2}", ns[0] / std::mem::replace(before, ns[0])),
            None => {
                self.before.push((what, ns[0]));
                String::new()
            }
        };
        println!(
            "{:<11}{:<10}{:<36}{:>11.2}{:>8.2}{:>12.2}{:>8.2}{:>8.2}{:>8}",
            format!("{n} x {c}"),
            self.tree,
            what,
            us[0],
            ns[0],
            us[1],
            ns[1],
            us[0] / us[1],
            growth
        );
        us
    }
}

/// Runs a call on two equal inputs, compares what both leave, and then times them.
fn time(calls: &Calls, rounds: usize, one: &mut Input, other: &mut Input) -> [Duration; 2] {
    (calls.library)(one);
    (calls.baseline)(other);
    assert!(one == other, "library and baseline differ");
    let times = race(rounds, || (calls.library)(one), || (calls.baseline)(other));
    assert!(one == other, "library and baseline differ");
    times
}

fn report(lines: &mut Lines, n: usize, c: usize, tree: &[u16], rounds: usize, random: &mut Random) {
    let matrix: Vec<u16> = (0..n * c).map(|_| random.below(10) as u16).collect();
    let text = sheet(n, c, tree, &matrix);
    let (mut one, mut other) = (vec![0; REPORT_BYTES], vec![0; REPORT_BYTES]);
    assert_eq!(ok(lent::report(&text, &mut one)), ok(sheets::report(&text, &mut other)) as usize);
    assert!(one == other && one.starts_with(b"taxa="), "library and baseline differ, or the sheet of {} bytes is refused", text.len());
    let times = race(rounds, || _ = ok(lent::report(&text, &mut one)), || _ = ok(sheets::report(&text, &mut other)));
    lines.put((n, c), "report", times, 1, (2 * n - 2) * c);
}

fn main() {
    let scale: usize = std::env::args().nth(1).map_or(1, |word| word.parse().expect("a number of repetitions, as 1 or 10"));
    println!(
        "{:<11}{:<10}{:<36}{:>11}{:>8}{:>12}{:>8}{:>8}{:>8}",
        "size", "tree", "what", "library us", "ns", "baseline us", "ns", "ratio", "growth"
    );
    let random = &mut Random(88_172_645_463_325_252);
    for (name, shape) in [("balanced", balanced as fn(usize) -> Vec<u16>), ("comb", comb)] {
        let mut lines = Lines { tree: name, before: Vec::new() };
        let mut notes = Vec::new();
        for (n, c) in [(64, 128), (128, 256), (256, 512)] {
            let size = (n, c);
            let (nodes, all) = (2 * n - 2, (2 * n - 2) * c);
            let rounds = |at_largest: usize| at_largest * scale * 256 / n;
            let mut one = Input::new(n, c, shape(n), random);
            let mut other = one.clone();
            lines.put(size, "all characters afresh", time(&AFRESH, rounds(400), &mut one, &mut other), 1, all);
            lines.put(size, "final ranges of all characters", time(&RANGES, rounds(60), &mut one, &mut other), 1, all);
            let build = lines.put(size, "build", time(&BUILD, rounds(300), &mut one, &mut other), 1, all);
            let rebuild = lines.put(size, "one character rebuilt", time(&REBUILD, rounds(2000), &mut one, &mut other), 1, nodes);
            let mean = lines.put(size, "a correction, mean of all taxa", time(&CORRECT, rounds(60), &mut one, &mut other), n, nodes);
            let deep = lines.put(size, "a correction, taxon n", time(&DEEPEST, rounds(60), &mut one, &mut other), n, nodes);
            // after so many corrections the table is still one that is built afresh
            let corrected = one.clone();
            (BUILD.library)(&mut one);
            assert!(one == corrected, "a corrected table is not one built afresh");
            let single = lines.put(size, "build, c = 1", time(&SINGLE, rounds(2000), &mut one, &mut other), 1, nodes);
            for (which, correction) in [("mean of all taxa", mean[0]), ("taxon n", deep[0])] {
                notes.push(format!(
                    "{n} x {c} {name}, {which}: build / correction {:.0}; correction / one character rebuilt {:.2}, by the baseline {:.2}; \
                     correction / build with c = 1 {:.2}",
                    build[0] / correction,
                    correction / rebuild[0],
                    correction / rebuild[1],
                    correction / single[0]
                ));
            }
        }
        for (n, c) in [(64, 14), (128, 28), (256, 57)] {
            report(&mut lines, n, c, &shape(n), 60 * scale * 256 / n, random);
        }
        lines.before.clear();
        report(&mut lines, 30, 512, &shape(30), 60 * scale, random);
        notes.iter().for_each(|note| println!("{note}"));
    }
    println!("Best of many repetitions, in microseconds for one call. ratio: library / baseline.");
    println!("ns: nanoseconds for each node and character; of a correction, a character rebuilt and c = 1, for each node.");
    println!("growth: the library's ns against its ns at half the taxa and half the characters; 1 is in proportion.");
}
