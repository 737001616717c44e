//! Kinds of figure: tally and peak.

use std::fmt::{Debug, Display, Formatter, Result};

use crate::text::whole_number;

/// What a figure can do. The text that `Display` writes is its text form.
pub trait Figure: Copy + Debug + Display + PartialEq {
    const ZERO: Self;
    const ONE: Self;

    fn plus(self, other: Self) -> Self;

    fn times(self, other: Self) -> Self;

    fn ranks_above(self, other: Self) -> bool;

    fn parse(field: &[u8]) -> Option<Self>;

    /// The greater of the two, the first if they rank alike.
    fn greater(self, other: Self) -> Self {
        if other.ranks_above(self) {
            other
        } else {
            self
        }
    }

    /// The lesser of the two, the first if they rank alike.
    fn lesser(self, other: Self) -> Self {
        if self.ranks_above(other) {
            other
        } else {
            self
        }
    }
}

/// A whole number that stays at its cap.
#[derive(Clone, Copy, Debug, PartialEq, Eq)]
pub struct Tally(pub u64);

impl Figure for Tally {
    const ZERO: Self = Tally(0);
    const ONE: Self = Tally(1);

    fn plus(self, other: Self) -> Self {
        Tally(self.0.saturating_add(other.0))
    }

    fn times(self, other: Self) -> Self {
        Tally(self.0.saturating_mul(other.0))
    }

    fn ranks_above(self, other: Self) -> bool {
        self.0 > other.0
    }

    fn parse(field: &[u8]) -> Option<Self> {
        whole_number(field, u64::MAX).map(Tally)
    }
}

impl Display for Tally {
    fn fmt(&self, formatter: &mut Formatter) -> Result {
        write!(formatter, "{}", self.0)
    }
}

/// Impossible, or a load that stays at its cap.
#[derive(Clone, Copy, Debug, PartialEq, Eq)]
pub enum Peak {
    Impossible,
    Load(u32),
}

impl Figure for Peak {
    const ZERO: Self = Peak::Impossible;
    const ONE: Self = Peak::Load(0);

    fn plus(self, other: Self) -> Self {
        self.greater(other)
    }

    fn times(self, other: Self) -> Self {
        match (self, other) {
            (Peak::Load(load), Peak::Load(more)) => Peak::Load(load.saturating_add(more)),
            _ => Peak::Impossible,
        }
    }

    fn ranks_above(self, other: Self) -> bool {
        match (self, other) {
            (Peak::Impossible, _) => false,
            (Peak::Load(_), Peak::Impossible) => true,
            (Peak::Load(load), Peak::Load(than)) => load > than,
        }
    }

    fn parse(field: &[u8]) -> Option<Self> {
        if field == b"-" {
            return Some(Peak::Impossible);
        }
        let load = whole_number(field, u64::from(u32::MAX))?;
        u32::try_from(load).ok().map(Peak::Load)
    }
}

impl Display for Peak {
    fn fmt(&self, formatter: &mut Formatter) -> Result {
        match self {
            Peak::Impossible => formatter.write_str("-"),
            Peak::Load(load) => write!(formatter, "{load}"),
        }
    }
}
