//! A small tree by enumeration: every way of giving integers to its interior nodes, from one below the least state to one above the greatest. Lengths
//! are plain sums over the entries of the tree table; there is no range, no join and no pass here.

/// What the shortest ways of one character have.
pub struct Shortest {
    /// The least length of the whole tree.
    pub length: u32,
    /// For each interior node, n+1 first: the states that it has in some shortest way of the whole tree, rising.
    pub used: Vec<Vec<i32>>,
    /// For each interior node: the least length of its subtree taken alone.
    pub subtree: Vec<u32>,
    /// For each interior node: the states that it has in some such way of its subtree, rising.
    pub used_below: Vec<Vec<i32>>,
}

/// The best length yet, and the states of those who have it.
#[derive(Clone, Default)]
struct Best {
    length: Option<u32>,
    states: Vec<i32>,
}

impl Best {
    fn offer(&mut self, length: u32, state: i32) {
        if self.length.is_none_or(|best| length < best) {
            self.length = Some(length);
            self.states.clear();
        }
        if self.length == Some(length) && !self.states.contains(&state) {
            self.states.push(state);
        }
    }

    fn take(mut self) -> (u32, Vec<i32>) {
        self.states.sort_unstable();
        (self.length.expect("there is a way"), self.states)
    }
}

/// The length of a way: the change along each branch, summed. `way` has a state for each node.
pub fn length_of(tree: &[u16], way: &[i32]) -> u32 {
    tree.iter().zip(way).filter(|(ancestor, _)| **ancestor != 0).map(|(&ancestor, state)| state.abs_diff(way[usize::from(ancestor) - 1])).sum()
}

/// The ancestors of a node, and so on up to the root.
fn above(tree: &[u16], node: usize) -> impl Iterator<Item = usize> + '_ {
    std::iter::successors(Some(usize::from(tree[node - 1])), |&node| (node != 0).then(|| usize::from(tree[node - 1]))).take_while(|&node| node != 0)
}

/// Goes through every way. The tree is an accepted one; `states` has a state for each taxon.
pub fn shortest(tree: &[u16], states: &[u16]) -> Shortest {
    let n = states.len();
    let interior = n - 2;
    let lowest = i32::from(*states.iter().min().expect("there are taxa")) - 1;
    let highest = i32::from(*states.iter().max().expect("there are taxa")) + 1;
    // the branches of the subtree of each interior node
    let branches: Vec<Vec<usize>> =
        (n + 1..=2 * n - 2).map(|top| (1..=2 * n - 2).filter(|&node| above(tree, node).any(|other| other == top)).collect()).collect();
    let mut way: Vec<i32> = states.iter().map(|&state| state.into()).chain(std::iter::repeat_n(lowest, interior)).collect();
    let mut whole = vec![Best::default(); interior];
    let mut below = vec![Best::default(); interior];
    loop {
        let length = length_of(tree, &way);
        for at in 0..interior {
            let under = branches[at].iter().map(|&node| way[node - 1].abs_diff(way[usize::from(tree[node - 1]) - 1])).sum();
            whole[at].offer(length, way[n + at]);
            below[at].offer(under, way[n + at]);
        }
        // the next way, as an odometer counts
        let Some(at) = (n..n + interior).find(|&at| way[at] < highest) else { break };
        way[at] += 1;
        way[n..at].fill(lowest);
    }
    let (lengths, used): (Vec<u32>, Vec<Vec<i32>>) = whole.into_iter().map(Best::take).unzip();
    let (subtree, used_below) = below.into_iter().map(Best::take).unzip();
    Shortest { length: lengths[0], used, subtree, used_below }
}

/// The highest less the lowest state.
pub fn m(states: &[u16]) -> u32 {
    states.iter().flat_map(|a| states.iter().map(move |b| u32::from(a.abs_diff(*b)))).max().expect("there are taxa")
}

/// The summed distances from the root taxon.
pub fn g(tree: &[u16], states: &[u16]) -> u32 {
    let root = tree.iter().position(|&ancestor| ancestor == 0).expect("there is a root");
    states.iter().map(|state| u32::from(state.abs_diff(states[root]))).sum()
}
