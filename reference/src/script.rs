//! The script of the program `calls`: a setup, and a list of calls.

use crate::figure::Figure;
use crate::order::Order;
use crate::text::number;

#[derive(Clone, Copy, Debug, PartialEq, Eq)]
pub enum Kind {
    Tally,
    Peak,
}

/// The first line.
#[derive(Clone, Copy, Debug, PartialEq, Eq)]
pub struct Setup {
    pub kind: Kind,
    pub order: Order,
    pub sheet_figures: usize,
    pub work_figures: usize,
}

#[derive(Clone, Copy, Debug, PartialEq)]
pub enum Call<F> {
    Hold(u16, bool),
    Release(u16),
    Weigh(u16, F, F),
    Trial(u16, bool),
    Figure,
    Bound,
    Select,
}

/// The number of a line that has not its form, counted from 1.
#[derive(Clone, Copy, Debug, PartialEq, Eq)]
pub struct Malformed(pub usize);

/// The setup, and the text behind its line.
pub fn read_setup(script: &[u8]) -> Result<(Setup, &[u8]), Malformed> {
    let (line, rest) = split_line(script).ok_or(Malformed(1))?;
    let setup = setup_of(line).ok_or(Malformed(1))?;
    Ok((setup, rest))
}

/// The calls, and the text behind the last of their lines.
pub fn read_calls<F: Figure>(text: &[u8]) -> Result<(Vec<Call<F>>, &[u8]), Malformed> {
    let mut calls = Vec::new();
    let mut rest = text;
    while rest.starts_with(b"C\t") {
        let malformed = Malformed(calls.len() + 2);
        let (line, behind) = split_line(rest).ok_or(malformed)?;
        calls.push(call_of(line).ok_or(malformed)?);
        rest = behind;
    }
    Ok((calls, rest))
}

/// A line without the byte that closes it, and what stands behind.
fn split_line(text: &[u8]) -> Option<(&[u8], &[u8])> {
    let length = text.iter().position(|&byte| byte == b'\n')?;
    Some((&text[..length], &text[length + 1..]))
}

fn fields(line: &[u8]) -> Vec<&[u8]> {
    line.split(|&byte| byte == b'\t').collect()
}

fn setup_of(line: &[u8]) -> Option<Setup> {
    let [b"D", kind, order, sheet, work] = fields(line)[..] else {
        return None;
    };
    Some(Setup {
        kind: match kind {
            b"tally" => Kind::Tally,
            b"peak" => Kind::Peak,
            _ => return None,
        },
        order: match order {
            b"number" => Order::Number,
            b"lean" => Order::StrongestLean,
            _ => return None,
        },
        sheet_figures: usize::from(number(sheet)?),
        work_figures: usize::from(number(work)?),
    })
}

fn call_of<F: Figure>(line: &[u8]) -> Option<Call<F>> {
    match fields(line)[..] {
        [b"C", b"hold", option, on] => Some(Call::Hold(number(option)?, side(on)?)),
        [b"C", b"release", option] => Some(Call::Release(number(option)?)),
        [b"C", b"weigh", chance, on, off] => {
            Some(Call::Weigh(number(chance)?, F::parse(on)?, F::parse(off)?))
        }
        [b"C", b"trial", option, on] => Some(Call::Trial(number(option)?, side(on)?)),
        [b"C", b"figure"] => Some(Call::Figure),
        [b"C", b"bound"] => Some(Call::Bound),
        [b"C", b"select"] => Some(Call::Select),
        _ => None,
    }
}

fn side(field: &[u8]) -> Option<bool> {
    match field {
        b"on" => Some(true),
        b"off" => Some(false),
        _ => None,
    }
}
