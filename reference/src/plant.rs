//! Reads a whole plant: its table file, and the weight text behind it.

use crate::check::{check, Table};
use crate::fault::Fault;
use crate::figure::Figure;
use crate::table_file::{read_table_file, Room};
use crate::weights::read_weights;

/// The checked table. Its weights are on the sheet afterwards.
pub fn read_plant<F: Figure>(bytes: &[u8], sheet: &mut [F]) -> Result<Table, Fault> {
    let file = read_table_file(bytes, Room::FULL)?;
    let weight_text = &bytes[file.weights_begin..];
    let table = check(file)?;
    read_weights(&table, sheet, weight_text)?;
    Ok(table)
}
