//! The counting, the plain and the pair pass.

use crate::check::Table;
use crate::figure::Figure;
use crate::table_file::{Node, MOST_VARIABLES};
use crate::text::Literal;
use crate::weights::weight_place;

/// What is held of a variable.
#[derive(Clone, Copy, Debug, PartialEq, Eq)]
pub enum Entry {
    Free,
    On,
    Off,
}

impl Entry {
    pub fn held(on: bool) -> Self {
        if on {
            Entry::On
        } else {
            Entry::Off
        }
    }
}

/// An entry for each variable that a table can have.
#[derive(Clone, Copy, Debug, PartialEq, Eq)]
pub struct Holds([Entry; MOST_VARIABLES]);

impl Holds {
    pub fn new() -> Self {
        Holds([Entry::Free; MOST_VARIABLES])
    }

    pub fn get(&self, variable: u16) -> Entry {
        self.0[usize::from(variable) - 1]
    }

    pub fn set(&mut self, variable: u16, entry: Entry) {
        self.0[usize::from(variable) - 1] = entry;
    }

    pub fn is_free(&self, variable: u16) -> bool {
        self.get(variable) == Entry::Free
    }

    /// The variables that are held, by rising number.
    pub fn held(&self) -> impl Iterator<Item = u16> + '_ {
        (1..)
            .zip(&self.0)
            .filter(|(_, &entry)| entry != Entry::Free)
            .map(|(variable, _)| variable)
    }
}

impl Default for Holds {
    fn default() -> Self {
        Self::new()
    }
}

/// What a pass reads. The sheet has two figures for each variable at least.
pub struct Query<'a, F> {
    pub table: &'a Table,
    pub sheet: &'a [F],
    pub holds: &'a Holds,
}

/// How many figures the counting and the plain pass write.
pub fn plain_places(table: &Table) -> usize {
    table.nodes().len()
}

/// How many figures the pair pass writes for each node.
pub fn part_places(table: &Table) -> usize {
    2 * table.options().len() + 1
}

/// How many figures the pair pass writes.
pub fn pair_places(table: &Table) -> usize {
    table.nodes().len() * part_places(table)
}

fn one_if<F: Figure>(is_so: bool) -> F {
    if is_so {
        F::ONE
    } else {
        F::ZERO
    }
}

impl<F: Figure> Query<'_, F> {
    /// The figure of the selection that the holds make, every free option off.
    pub fn figure(&self, work: &mut [F]) -> F {
        for (place, node) in self.table.nodes().iter().enumerate() {
            work[place] = match node {
                Node::Literal(literal) => self.counted_literal(*literal),
                Node::And(children) => product(children, |child| work[child]),
                Node::Fork { on, off, .. } => work[*on].plus(work[*off]),
                Node::True => F::ONE,
                Node::False => F::ZERO,
            };
        }
        work[self.table.root()]
    }

    /// The plain bound.
    pub fn plain_bound(&self, work: &mut [F]) -> F {
        for (place, node) in self.table.nodes().iter().enumerate() {
            work[place] = self.plain_value(node, |child| work[child]);
        }
        work[self.table.root()]
    }

    /// The bound, by the pair pass.
    pub fn bound(&self, work: &mut [F]) -> F {
        let places = part_places(self.table);
        for (place, node) in self.table.nodes().iter().enumerate() {
            let (before, rest) = work.split_at_mut(place * places);
            self.pair_values(place, node, before, &mut rest[..places]);
        }
        work[self.table.root() * places]
    }

    /// One node's part in the pair pass, from the parts before it.
    fn pair_values(&self, place: usize, node: &Node, before: &[F], part: &mut [F]) {
        let places = part.len();
        part.fill(F::ZERO);
        let mut least = None;
        for (index, &option) in self.table.options().iter().enumerate() {
            if !self.holds.is_free(option) || !self.table.mentions(place).contains(option) {
                continue;
            }
            let [on_value, off_value] = [true, false].map(|on| {
                let under = |child: usize| {
                    let value = before[child * places];
                    if self.table.mentions(child).contains(option) {
                        let side = child * places + side_place(index, on);
                        value.lesser(before[side])
                    } else {
                        value
                    }
                };
                match node {
                    Node::Literal(literal) => one_if(literal.on == on),
                    other => self.plain_value(other, under),
                }
            });
            part[side_place(index, true)] = on_value;
            part[side_place(index, false)] = off_value;
            let reach = on_value.greater(off_value);
            least = Some(least.map_or(reach, |least: F| least.lesser(reach)));
        }
        part[0] = least.unwrap_or_else(|| self.plain_value(node, |child| before[child * places]));
    }

    /// A node's value in the plain pass, from the values of its children.
    fn plain_value(&self, node: &Node, value: impl Fn(usize) -> F) -> F {
        match node {
            Node::Literal(literal) => self.plain_literal(*literal),
            Node::And(children) => product(children, value),
            &Node::Fork { variable, on, off } if self.table.is_option(variable) => {
                value(on).greater(value(off))
            }
            &Node::Fork { on, off, .. } => value(on).plus(value(off)),
            Node::True => F::ONE,
            Node::False => F::ZERO,
        }
    }

    fn counted_literal(&self, literal: Literal) -> F {
        if self.table.is_option(literal.variable) {
            let is_on = self.holds.get(literal.variable) == Entry::On;
            one_if(literal.on == is_on)
        } else {
            self.sheet[weight_place(literal)]
        }
    }

    fn plain_literal(&self, literal: Literal) -> F {
        if self.table.is_option(literal.variable) {
            one_if(self.holds.get(literal.variable) != Entry::held(!literal.on))
        } else {
            self.sheet[weight_place(literal)]
        }
    }
}

fn product<F: Figure>(children: &[usize], value: impl Fn(usize) -> F) -> F {
    children
        .iter()
        .fold(F::ONE, |product, &child| product.times(value(child)))
}

/// Where an option's on or off value stands in a part; options from 0.
pub fn side_place(option_index: usize, on: bool) -> usize {
    if on {
        2 * option_index + 1
    } else {
        2 * option_index + 2
    }
}
