//! What the calls answer.
use std::fmt;
use std::ops::RangeInclusive;

/// How a reconstruction is resolved: from the root downward, each interior node takes the state nearest its ancestor's.
#[derive(Clone, Copy, Debug, Default, PartialEq, Eq, Hash)]
pub enum Resolve {
    /// Of its first-pass range: changes come early.
    #[default]
    Acctran,
    /// Of its final range: changes come late.
    Deltran,
}

impl Resolve {
    /// The number of the C interface.
    pub(crate) fn number(self) -> u8 {
        match self {
            Resolve::Acctran => 0,
            Resolve::Deltran => 1,
        }
    }
}

/// An index, CI or RI: a fraction that is not reduced, or none.
///
/// It is written as in a report, with the thousandths, halves up:
///
/// ```
/// use badrumello::Index;
///
/// assert_eq!(Index::Fraction { over: 6, under: 9 }.to_string(), "6/9,667");
/// assert_eq!(Index::None.to_string(), "none");
/// ```
#[derive(Clone, Copy, Debug, PartialEq, Eq, Hash)]
pub enum Index {
    /// There is none: for CI the length is 0; for RI g = m, or g is below the length.
    None,
    /// `over / under`; `under` is not 0.
    Fraction {
        /// The numerator.
        over: u32,
        /// The denominator.
        under: u32,
    },
}

impl Index {
    fn read(over: u32, under: u32) -> Index {
        if under == 0 { Index::None } else { Index::Fraction { over, under } }
    }

    /// The fraction in thousandths, halves up: 0 to 1000.
    pub fn thousandths(self) -> Option<u32> {
        match self {
            Index::None => None,
            Index::Fraction { over, under } => Some(((2000 * u64::from(over) + u64::from(under)) / (2 * u64::from(under))) as u32),
        }
    }
}

impl fmt::Display for Index {
    fn fmt(&self, out: &mut fmt::Formatter<'_>) -> fmt::Result {
        match (*self, self.thousandths()) {
            (Index::Fraction { over, under }, Some(thousandths)) => write!(out, "{over}/{under},{thousandths}"),
            _ => write!(out, "none"),
        }
    }
}

/// The scores of a character, or of a tree: there m, g and the length are summed over the characters first.
#[derive(Clone, Copy, Debug, PartialEq, Eq, Hash)]
pub struct Scores {
    /// The least length over all ways of giving integers to the interior nodes.
    pub length: u32,
    /// The highest minus the lowest state over all taxa.
    pub m: u32,
    /// The sum over taxa of the distance from the root taxon's state.
    pub g: u32,
    /// The consistency index, m / length.
    pub ci: Index,
    /// The retention index, (g - length) / (g - m).
    pub ri: Index,
}

impl Scores {
    /// From the result slice of the C interface.
    pub(crate) fn read(seven: [u32; 7]) -> Scores {
        let [length, m, g, ci_over, ci_under, ri_over, ri_under] = seven;
        Scores { length, m, g, ci: Index::read(ci_over, ci_under), ri: Index::read(ri_over, ri_under) }
    }
}

/// A range of states for each interior node, node n+1 first.
#[derive(Clone, Debug, Default, PartialEq, Eq, Hash)]
pub struct Ranges {
    /// The low ends.
    pub low: Vec<u16>,
    /// The high ends, as many.
    pub high: Vec<u16>,
}

impl Ranges {
    pub(crate) fn room(entries: usize) -> Ranges {
        Ranges { low: vec![0; entries], high: vec![0; entries] }
    }

    /// The ranges one after another, node n+1 first.
    pub fn iter(&self) -> impl Iterator<Item = RangeInclusive<u16>> + '_ {
        self.low.iter().zip(&self.high).map(|(&low, &high)| low..=high)
    }
}
