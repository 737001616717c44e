//! Select, by branch and bound.

use crate::check::Table;
use crate::figure::Figure;
use crate::order::{Lean, Order};
use crate::passes::{pair_places, part_places, side_place, Entry, Holds, Query};

/// What select has found.
#[derive(Clone, Copy, Debug, PartialEq)]
pub struct Found<F> {
    pub best: Option<Best<F>>,
    pub openings: u64,
}

/// A selection, in which every option is held, and its figure.
#[derive(Clone, Copy, Debug, PartialEq)]
pub struct Best<F> {
    pub selection: Holds,
    pub figure: F,
}

impl<F: Figure> Found<F> {
    /// The line that a program prints for it, without the byte that closes it.
    pub fn line(&self, table: &Table) -> String {
        let Some(best) = self.best else {
            return format!("S\tnone\t{}", self.openings);
        };
        let mut line = format!("S\t{}\t{}", best.figure, self.openings);
        for &option in table.options() {
            if best.selection.get(option) == Entry::On {
                line.push('\t');
                line.push_str(table.name(option));
            }
        }
        line
    }
}

/// How many figures the pair passes of one select may write before it gives up.
#[derive(Clone, Copy, Debug)]
pub struct Patience(pub u64);

impl Patience {
    pub const ENDLESS: Patience = Patience(u64::MAX);
}

/// The best selection that keeps the holds, or nothing if patience ran out.
pub fn select<F: Figure>(
    query: &Query<F>,
    work: &mut [F],
    order: Order,
    patience: Patience,
) -> Option<Found<F>> {
    let mut search = Search {
        table: query.table,
        sheet: query.sheet,
        work,
        order,
        most_openings: patience.0 / pair_places(query.table) as u64,
        found: Found {
            best: None,
            openings: 0,
        },
    };
    let mut holds = *query.holds;
    search.open(&mut holds)?;
    Some(search.found)
}

struct Search<'a, F> {
    table: &'a Table,
    sheet: &'a [F],
    work: &'a mut [F],
    order: Order,
    most_openings: u64,
    found: Found<F>,
}

impl<F: Figure> Search<'_, F> {
    /// Opens a branch, with all that follows from it.
    fn open(&mut self, holds: &mut Holds) -> Option<()> {
        if self.found.openings == self.most_openings {
            return None;
        }
        self.found.openings += 1;
        let to_beat = self.found.best.map_or(F::ZERO, |best| best.figure);
        let query = Query {
            table: self.table,
            sheet: self.sheet,
            holds,
        };
        if !query.bound(self.work).ranks_above(to_beat) {
            return Some(());
        }
        let leans = self.leans(holds);
        if leans.is_empty() {
            let figure = query.figure(self.work);
            if figure.ranks_above(to_beat) {
                self.found.best = Some(Best {
                    selection: *holds,
                    figure,
                });
            }
            return Some(());
        }
        let option = self.order.pick(&leans);
        for on in [true, false] {
            holds.set(option, Entry::held(on));
            self.open(holds)?;
        }
        holds.set(option, Entry::Free);
        Some(())
    }

    /// What the order is told, with the work table as the pair pass has left it.
    fn leans(&self, holds: &Holds) -> Vec<Lean<F>> {
        let root = self.table.root();
        let part = &self.work[root * part_places(self.table)..];
        self.table
            .options()
            .iter()
            .enumerate()
            .filter(|(_, &option)| holds.is_free(option))
            .map(|(index, &option)| Lean {
                option,
                mentioned: self.table.mentions(root).contains(option),
                on_value: part[side_place(index, true)],
                off_value: part[side_place(index, false)],
            })
            .collect()
    }
}
