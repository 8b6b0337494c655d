//! Ranges of states.

/// The states from `low` to `high`, both included.
#[derive(Clone, Copy, Debug, Default, PartialEq, Eq)]
pub struct Range {
    pub low: u16,
    pub high: u16,
}

impl Range {
    pub fn of(state: u16) -> Range {
        Range { low: state, high: state }
    }

    /// The overlap if the two meet, else the gap between them, ends included; and the distance.
    pub fn join(self, other: Range) -> (Range, u32) {
        let low = self.low.max(other.low);
        let high = self.high.min(other.high);
        if low <= high { (Range { low, high }, 0) } else { (Range { low: high, high: low }, u32::from(low - high)) }
    }

    /// The state of this range nearest to the one given.
    pub fn nearest(self, state: u16) -> u16 {
        state.max(self.low).min(self.high)
    }

    pub fn distance(self, state: u16) -> u32 {
        u32::from(state.abs_diff(self.nearest(state)))
    }

    /// The third and the fourth smallest of the six ends.
    pub fn middle(a: Range, b: Range, c: Range) -> Range {
        let mut ends = [a.low, a.high, b.low, b.high, c.low, c.high];
        ends.sort_unstable();
        Range { low: ends[2], high: ends[3] }
    }
}
