//! Lines, fields and numbers.

use crate::fault::{Fault, Refusal};

/// A line's number, counted from 1, and its fields.
pub struct Line<'a> {
    pub number: usize,
    pub fields: Vec<&'a [u8]>,
}

impl<'a> Line<'a> {
    pub fn refused(&self, refusal: Refusal) -> Fault {
        refusal.at(self.number)
    }

    /// The fields behind the letter, if the line begins with it and has so many.
    pub fn fields_behind(&self, letter: &[u8], count: usize) -> Option<&[&'a [u8]]> {
        (self.fields[0] == letter && self.fields.len() == count + 1).then(|| &self.fields[1..])
    }
}

/// Takes a text apart, line by line.
pub struct Lines<'a> {
    text: &'a [u8],
    place: usize,
    number: usize,
}

impl<'a> Lines<'a> {
    pub fn new(text: &'a [u8]) -> Self {
        Lines {
            text,
            place: 0,
            number: 0,
        }
    }

    /// Where the next line begins, in bytes from the start of the text.
    pub fn place(&self) -> usize {
        self.place
    }

    pub fn is_over(&self) -> bool {
        self.place == self.text.len()
    }

    /// The next line. Refused if it is missing, not closed, or has a byte that
    /// may not stand in a line.
    pub fn next_line(&mut self) -> Result<Line<'a>, Fault> {
        self.number += 1;
        let refused = Refusal::LineForm.at(self.number);
        let rest = &self.text[self.place..];
        let length = rest.iter().position(|&byte| byte == b'\n').ok_or(refused)?;
        let line = &rest[..length];
        if line
            .iter()
            .any(|&byte| byte != b'\t' && !is_printable(byte))
        {
            return Err(refused);
        }
        self.place += length + 1;
        Ok(Line {
            number: self.number,
            fields: line.split(|&byte| byte == b'\t').collect(),
        })
    }
}

fn is_printable(byte: u8) -> bool {
    (32..=126).contains(&byte)
}

/// A whole number from 0 to `most`, in digits with no leading zero.
pub fn whole_number(field: &[u8], most: u64) -> Option<u64> {
    if field.is_empty() || (field.len() > 1 && field[0] == b'0') {
        return None;
    }
    let mut number: u64 = 0;
    for &byte in field {
        if !byte.is_ascii_digit() {
            return None;
        }
        number = number
            .checked_mul(10)?
            .checked_add(u64::from(byte - b'0'))?;
    }
    (number <= most).then_some(number)
}

/// A number as the table file has it: at most 65,535.
pub fn number(field: &[u8]) -> Option<u16> {
    whole_number(field, u64::from(u16::MAX)).and_then(|number| u16::try_from(number).ok())
}

/// A variable with a side: on or off.
#[derive(Clone, Copy, Debug, PartialEq, Eq)]
pub struct Literal {
    pub variable: u16,
    pub on: bool,
}

/// A number, with a minus sign in front for off.
pub fn literal(field: &[u8]) -> Option<Literal> {
    let (digits, on) = match field.strip_prefix(b"-") {
        Some(digits) => (digits, false),
        None => (field, true),
    };
    number(digits).map(|variable| Literal { variable, on })
}
