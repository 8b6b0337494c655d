//! Tree tables.
#![allow(clippy::needless_range_loop)] // nodes are counted from 1
use crate::{Refusal, refuse};

/// An accepted tree. Nodes are counted from 1; index 0 of the lists is not used.
pub struct Tree {
    pub n: usize,
    pub root: usize,
    /// The root's one descendant, an interior node.
    pub top: usize,
    pub ancestor: Vec<usize>,
    /// The two descendants of each interior node.
    pub descendants: Vec<[usize; 2]>,
    /// The interior nodes, each before those below it.
    pub downward: Vec<usize>,
    /// Each interior node with its two descendants, behind all that are below it.
    pub upward: Vec<[u16; 3]>,
}

impl Tree {
    /// Refusals 3, 4, 5 and 6, in this order. The slice has 2n-2 entries.
    pub fn accept(n: usize, table: &[u16]) -> Result<Tree, Refusal> {
        let nodes = 2 * n - 2;
        let mut ancestor = vec![0; nodes + 1];
        for node in 1..=nodes {
            ancestor[node] = usize::from(table[node - 1]);
        }

        // 3: exactly one entry is 0, and it is a taxon's
        let mut root = None;
        for node in 1..=nodes {
            if ancestor[node] == 0 {
                if node > n || root.is_some() {
                    return refuse(3, node);
                }
                root = Some(node);
            }
        }
        let Some(root) = root else { return refuse(3, 0) };

        // 4: an entry names an interior node or the root
        for node in 1..=nodes {
            let named = ancestor[node];
            if named > nodes || (named != 0 && named <= n && named != root) {
                return refuse(4, node);
            }
        }

        // 5: the root has one descendant, an interior node two
        let mut count = vec![0; nodes + 1];
        let mut descendants = vec![[0; 2]; nodes + 1];
        for node in 1..=nodes {
            let named = ancestor[node];
            if named != 0 {
                if count[named] < 2 {
                    descendants[named][count[named]] = node;
                }
                count[named] += 1;
            }
        }
        for node in 1..=nodes {
            if (node == root && count[node] != 1) || (node > n && count[node] != 2) {
                return refuse(5, node);
            }
        }

        // 6: every node is found from the root
        let top = descendants[root][0];
        let mut found = vec![false; nodes + 1];
        found[root] = true;
        let mut downward = Vec::with_capacity(n - 2);
        let mut waiting = vec![top];
        while let Some(node) = waiting.pop() {
            found[node] = true;
            if node > n {
                downward.push(node);
                waiting.extend(descendants[node]);
            }
        }
        match (1..=nodes).find(|&node| !found[node]) {
            Some(node) => refuse(6, node),
            None => {
                let step = |&node: &usize| [node, descendants[node][0], descendants[node][1]].map(|node| node as u16);
                let upward = downward.iter().rev().map(step).collect();
                Ok(Tree { n, root, top, ancestor, descendants, downward, upward })
            }
        }
    }

    /// The interior nodes between a taxon and the root, from the taxon upward.
    pub fn path(&self, taxon: usize) -> Vec<usize> {
        let mut path = Vec::new();
        let mut node = self.ancestor[taxon];
        while node > self.n {
            path.push(node);
            node = self.ancestor[node];
        }
        path
    }
}
