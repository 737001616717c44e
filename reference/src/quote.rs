//! What the program `quote` prints.

use crate::fault::Fault;
use crate::figure::{Figure, Tally};
use crate::order::Order;
use crate::plant::read_plant;
use crate::select::Patience;
use crate::study::Study;

const SHEET_FIGURES: usize = 128;
const WORK_FIGURES: usize = 4_096;

/// The lines of the bound and of the best selection. Nothing if patience ran out.
pub fn quote(input: &[u8], patience: Patience) -> Result<Option<String>, Fault> {
    let mut sheet = vec![Tally::ZERO; SHEET_FIGURES];
    let mut work = vec![Tally::ZERO; WORK_FIGURES];
    let table = read_plant(input, &mut sheet)?;
    let mut study = Study::new(&table, &mut sheet, &mut work);
    let bound = study.bound()?;
    let found = study.select(Order::Number, patience)?;
    Ok(found.map(|found| format!("B\t{bound}\n{}\n", found.line(&table))))
}
