//! The weight text's reader, and the sheet that it writes.

use crate::check::Table;
use crate::fault::{Fault, Refusal};
use crate::figure::Figure;
use crate::text::{number, Line, Lines, Literal};

/// The place of a literal's weight on a sheet.
pub fn weight_place(literal: Literal) -> usize {
    let on_place = 2 * usize::from(literal.variable) - 2;
    if literal.on {
        on_place
    } else {
        on_place + 1
    }
}

/// Writes a variable's two weights.
pub fn write_weights<F: Figure>(sheet: &mut [F], variable: u16, on_weight: F, off_weight: F) {
    for (on, weight) in [(true, on_weight), (false, off_weight)] {
        sheet[weight_place(Literal { variable, on })] = weight;
    }
}

/// Whether the sheet has fewer than two figures for each variable.
pub fn is_short<F>(sheet: &[F], table: &Table) -> bool {
    sheet.len() < 2 * table.variables().len()
}

pub fn read_weights<F: Figure>(table: &Table, sheet: &mut [F], text: &[u8]) -> Result<(), Fault> {
    if is_short(sheet, table) {
        return Err(Refusal::ShortSheet.at(0));
    }
    sheet[..2 * table.variables().len()].fill(F::ONE);
    let mut lines = Lines::new(text);
    while !lines.is_over() {
        let (chance, on_weight, off_weight) = read_line(table, &lines.next_line()?)?;
        write_weights(sheet, chance, on_weight, off_weight);
    }
    Ok(())
}

fn read_line<F: Figure>(table: &Table, line: &Line) -> Result<(u16, F, F), Fault> {
    let fields = line
        .fields_behind(b"W", 3)
        .ok_or(line.refused(Refusal::LineForm))?;
    let no_number = line.refused(Refusal::NumberForm);
    let chance = number(fields[0]).ok_or(no_number)?;
    let on_weight = F::parse(fields[1]).ok_or(no_number)?;
    let off_weight = F::parse(fields[2]).ok_or(no_number)?;
    if !table.is_chance(chance) {
        return Err(line.refused(Refusal::NoChance));
    }
    Ok((chance, on_weight, off_weight))
}
