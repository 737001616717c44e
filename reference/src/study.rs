//! A study and its seven calls.

use crate::check::Table;
use crate::fault::{Fault, Refusal};
use crate::figure::Figure;
use crate::order::Order;
use crate::passes::{pair_places, plain_places, Entry, Holds, Query};
use crate::select::{select, Found, Patience};
use crate::weights::{is_short, write_weights};

/// A checked table, a sheet, a work table, and what is held.
pub struct Study<'a, F> {
    pub table: &'a Table,
    pub sheet: &'a mut [F],
    pub work: &'a mut [F],
    pub holds: Holds,
}

impl<'a, F: Figure> Study<'a, F> {
    /// A new study holds nothing.
    pub fn new(table: &'a Table, sheet: &'a mut [F], work: &'a mut [F]) -> Self {
        Study {
            table,
            sheet,
            work,
            holds: Holds::new(),
        }
    }

    pub fn hold(&mut self, option: u16, on: bool) -> Result<(), Fault> {
        self.no_stray_hold()?;
        self.is_option(option)?;
        self.is_free(option)?;
        self.holds.set(option, Entry::held(on));
        Ok(())
    }

    pub fn release(&mut self, option: u16) -> Result<(), Fault> {
        self.no_stray_hold()?;
        self.is_option(option)?;
        if self.holds.is_free(option) {
            return Err(Refusal::NotHeld.at(usize::from(option)));
        }
        self.holds.set(option, Entry::Free);
        Ok(())
    }

    pub fn weigh(&mut self, chance: u16, on_weight: F, off_weight: F) -> Result<(), Fault> {
        self.sheet_is_long_enough()?;
        self.no_stray_hold()?;
        if !self.table.is_chance(chance) {
            return Err(Refusal::NoChance.at(usize::from(chance)));
        }
        write_weights(self.sheet, chance, on_weight, off_weight);
        Ok(())
    }

    pub fn trial(&mut self, option: u16, on: bool) -> Result<F, Fault> {
        self.sheet_is_long_enough()?;
        self.no_stray_hold()?;
        self.is_option(option)?;
        self.is_free(option)?;
        self.work_is_long_enough(pair_places(self.table))?;
        self.holds.set(option, Entry::held(on));
        let bound = self.on_the_holds(|query, work| query.bound(work));
        self.holds.set(option, Entry::Free);
        Ok(bound)
    }

    pub fn figure(&mut self) -> Result<F, Fault> {
        self.sheet_is_long_enough()?;
        self.no_stray_hold()?;
        let is_free = |&option: &u16| self.holds.is_free(option);
        if self.table.options().iter().any(is_free) {
            return Err(Refusal::StillFree.at(0));
        }
        self.work_is_long_enough(plain_places(self.table))?;
        Ok(self.on_the_holds(|query, work| query.figure(work)))
    }

    pub fn bound(&mut self) -> Result<F, Fault> {
        self.sheet_is_long_enough()?;
        self.no_stray_hold()?;
        self.work_is_long_enough(pair_places(self.table))?;
        Ok(self.on_the_holds(|query, work| query.bound(work)))
    }

    /// Nothing if patience ran out.
    pub fn select(&mut self, order: Order, patience: Patience) -> Result<Option<Found<F>>, Fault> {
        self.sheet_is_long_enough()?;
        self.no_stray_hold()?;
        self.work_is_long_enough(pair_places(self.table))?;
        Ok(self.on_the_holds(|query, work| select(query, work, order, patience)))
    }

    fn on_the_holds<Answer>(
        &mut self,
        answer: impl FnOnce(&Query<F>, &mut [F]) -> Answer,
    ) -> Answer {
        let query = Query {
            table: self.table,
            sheet: self.sheet,
            holds: &self.holds,
        };
        answer(&query, self.work)
    }

    fn sheet_is_long_enough(&self) -> Result<(), Fault> {
        if is_short(self.sheet, self.table) {
            return Err(Refusal::ShortSheet.at(0));
        }
        Ok(())
    }

    fn no_stray_hold(&self) -> Result<(), Fault> {
        if self
            .holds
            .held()
            .any(|variable| !self.table.is_option(variable))
        {
            return Err(Refusal::StrayHold.at(0));
        }
        Ok(())
    }

    fn is_option(&self, number: u16) -> Result<(), Fault> {
        if !self.table.is_option(number) {
            return Err(Refusal::NoOption.at(usize::from(number)));
        }
        Ok(())
    }

    fn is_free(&self, option: u16) -> Result<(), Fault> {
        if !self.holds.is_free(option) {
            return Err(Refusal::Held.at(usize::from(option)));
        }
        Ok(())
    }

    fn work_is_long_enough(&self, places: usize) -> Result<(), Fault> {
        if self.work.len() < places {
            return Err(Refusal::ShortWork.at(0));
        }
        Ok(())
    }
}
