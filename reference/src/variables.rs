//! Variables and sets of them.

/// Who sets a variable: the estimator an option, the site a chance.
#[derive(Clone, Copy, Debug, PartialEq, Eq)]
pub enum Role {
    Option,
    Chance,
}

#[derive(Clone, Debug, PartialEq, Eq)]
pub struct Variable {
    pub role: Role,
    pub name: String,
}

/// A set of variables with numbers from 1 to 64.
#[derive(Clone, Copy, Debug, Default, PartialEq, Eq)]
pub struct VariableSet(u64);

impl VariableSet {
    pub fn of(variable: u16) -> Self {
        VariableSet(1 << (variable - 1))
    }

    pub fn contains(self, variable: u16) -> bool {
        self.intersects(Self::of(variable))
    }

    pub fn union(self, other: Self) -> Self {
        VariableSet(self.0 | other.0)
    }

    pub fn intersection(self, other: Self) -> Self {
        VariableSet(self.0 & other.0)
    }

    pub fn intersects(self, other: Self) -> bool {
        self.0 & other.0 != 0
    }
}

impl FromIterator<u16> for VariableSet {
    fn from_iter<Numbers: IntoIterator<Item = u16>>(numbers: Numbers) -> Self {
        numbers.into_iter().fold(Self::default(), |set, variable| {
            set.union(Self::of(variable))
        })
    }
}
