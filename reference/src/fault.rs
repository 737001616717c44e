//! Refusals, their numbers, and the places that they name.

use std::fmt;

/// Why an input or a call is refused. Each has its number.
#[derive(Clone, Copy, Debug, PartialEq, Eq)]
pub enum Refusal {
    FileLength = 1,
    LineForm = 2,
    NumberForm = 3,
    CountLimit = 4,
    ShortStore = 5,
    VariableRule = 6,
    ChildrenCount = 7,
    ChildNotBelow = 8,
    UnknownVariable = 9,
    SharedVariable = 10,
    NoDecision = 11,
    UnevenFork = 12,
    RootLacksChance = 13,
    ShortSheet = 14,
    StrayHold = 15,
    NoOption = 16,
    NoChance = 17,
    Held = 18,
    NotHeld = 19,
    StillFree = 20,
    ShortWork = 21,
}

impl Refusal {
    pub fn number(self) -> usize {
        self as usize
    }

    pub fn at(self, place: usize) -> Fault {
        Fault {
            refusal: self,
            place,
        }
    }
}

/// A refusal with its place: a line, a node, a variable's number, or 0.
#[derive(Clone, Copy, Debug, PartialEq, Eq)]
pub struct Fault {
    pub refusal: Refusal,
    pub place: usize,
}

/// The line that a program prints for it, without the byte that closes it.
impl fmt::Display for Fault {
    fn fmt(&self, formatter: &mut fmt::Formatter) -> fmt::Result {
        write!(formatter, "X\t{}\t{}", self.refusal.number(), self.place)
    }
}
