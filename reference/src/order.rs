//! Branching orders.

use crate::figure::Figure;

/// What an order is told of a free option.
#[derive(Clone, Copy, Debug)]
pub struct Lean<F> {
    pub option: u16,
    /// Whether the root mentions it.
    pub mentioned: bool,
    pub on_value: F,
    pub off_value: F,
}

#[derive(Clone, Copy, Debug, PartialEq, Eq)]
pub enum Order {
    Number,
    StrongestLean,
}

impl Order {
    /// One of the options told of. There is at least one, and they rise.
    pub fn pick<F: Figure>(self, leans: &[Lean<F>]) -> u16 {
        match self {
            Order::Number => leans[0].option,
            Order::StrongestLean => strongest_lean(leans).unwrap_or(leans[0].option),
        }
    }
}

fn strongest_lean<F: Figure>(leans: &[Lean<F>]) -> Option<u16> {
    let mut strongest: Option<(u16, F)> = None;
    for lean in leans.iter().filter(|lean| lean.mentioned) {
        let lesser = lean.on_value.lesser(lean.off_value);
        if strongest.is_none_or(|(_, lowest)| lowest.ranks_above(lesser)) {
            strongest = Some((lean.option, lesser));
        }
    }
    strongest.map(|(option, _)| option)
}
