//! The kept table, with its buffers.
use crate::lent;
use crate::{Ranges, Refusal};

/// A tree, a matrix, and the first pass of all characters, kept while single cells are corrected.
///
/// The table owns its buffers and nobody else can write to them, so after each correction it equals a table built afresh from the matrix as it then is.
///
/// ```
/// use badrumello::KeptTable;
///
/// let mut table = KeptTable::build(4, 2, vec![0, 5, 6, 6, 1, 5], vec![0, 0, 3, 1, 1, 1, 5, 0])?;
/// assert_eq!(table.length(), 9);
///
/// // taxon 4, character 1 becomes 3: two interior nodes stand between taxon 4 and the root
/// assert_eq!(table.correct(4, 1, 3)?, 2);
/// assert_eq!(table.length(), 7);
/// assert_eq!(table.state(4, 1), Some(3));
///
/// // a state that is none is refused, and nothing has changed
/// let refusal = table.correct(4, 1, 10000).unwrap_err();
/// assert_eq!((refusal.number, refusal.place), (9, 0));
/// assert_eq!(table.length(), 7);
/// # Ok::<(), badrumello::Refusal>(())
/// ```
#[derive(Clone, Debug, PartialEq, Eq)]
pub struct KeptTable {
    n: usize,
    c: usize,
    tree: Vec<u16>,
    matrix: Vec<u16>,
    low: Vec<u16>,
    high: Vec<u16>,
    lengths: Vec<u32>,
}

impl KeptTable {
    /// Builds the table of a tree (2n-2 entries) and a matrix (n rows of c states). Refusals: 1 to 7.
    pub fn build(n: usize, c: usize, tree: Vec<u16>, matrix: Vec<u16>) -> Result<KeptTable, Refusal> {
        let entries = if crate::within(n, c) { (n - 2) * c } else { 0 };
        let (mut low, mut high, mut lengths) = (vec![0; entries], vec![0; entries], vec![0; entries]);
        lent::build(n, c, &tree, &matrix, &mut low, &mut high, &mut lengths)?;
        Ok(KeptTable { n, c, tree, matrix, low, high, lengths })
    }

    /// Corrects one cell: the count of interior nodes between the taxon and the root, 0 for the root taxon. Refusals: 8 and 9.
    pub fn correct(&mut self, taxon: usize, character: usize, state: u16) -> Result<usize, Refusal> {
        let KeptTable { n, c, tree, matrix, low, high, lengths } = self;
        lent::correct(*n, *c, taxon, character, state, tree, matrix, low, high, lengths)
    }

    /// The length of the tree. (It has no refusal: the table was built, and only corrections have changed it.)
    pub fn length(&self) -> u32 {
        match lent::kept_length(self.n, self.c, &self.tree, &self.matrix, &self.low, &self.high, &self.lengths) {
            Ok(length) => length,
            Err(refusal) => unreachable!("a table that was built is never refused: {refusal}"),
        }
    }

    /// One character's length and final ranges. Refusal: 8.
    ///
    /// ```
    /// use badrumello::KeptTable;
    ///
    /// let table = KeptTable::build(4, 2, vec![0, 5, 6, 6, 1, 5], vec![0, 0, 3, 1, 1, 1, 5, 0])?;
    /// let (length, last) = table.character(1)?;
    /// assert_eq!(length, 7);
    /// assert_eq!(last.iter().collect::<Vec<_>>(), [1..=3, 1..=3]);
    /// assert_eq!(table.character(3).unwrap_err().number, 8);
    /// # Ok::<(), badrumello::Refusal>(())
    /// ```
    pub fn character(&self, character: usize) -> Result<(u32, Ranges), Refusal> {
        let mut last = Ranges::room(self.n - 2);
        let length = lent::kept_character(
            self.n,
            self.c,
            character,
            &self.tree,
            &self.matrix,
            &self.low,
            &self.high,
            &self.lengths,
            &mut last.low,
            &mut last.high,
        )?;
        Ok((length, last))
    }

    /// The number of taxa.
    pub fn taxa(&self) -> usize {
        self.n
    }

    /// The number of characters.
    pub fn characters(&self) -> usize {
        self.c
    }

    /// The tree table.
    pub fn tree(&self) -> &[u16] {
        &self.tree
    }

    /// The matrix as it now is: n rows of c states.
    pub fn matrix(&self) -> &[u16] {
        &self.matrix
    }

    /// The state of a taxon for a character, if there are such.
    pub fn state(&self, taxon: usize, character: usize) -> Option<u16> {
        let there = (1..=self.n).contains(&taxon) && (1..=self.c).contains(&character);
        there.then(|| self.matrix[(taxon - 1) * self.c + character - 1])
    }

    /// The low ends of the first-pass ranges: character 1 first, and of each character node n+1 first.
    pub fn low(&self) -> &[u16] {
        &self.low
    }

    /// The high ends of the first-pass ranges, in the same order.
    pub fn high(&self) -> &[u16] {
        &self.high
    }

    /// The subtree lengths, in the same order.
    pub fn lengths(&self) -> &[u32] {
        &self.lengths
    }
}
