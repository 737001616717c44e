//! What the program `calls` prints.

use std::fmt;

use crate::fault::Fault;
use crate::figure::{Figure, Peak, Tally};
use crate::plant::read_plant;
use crate::script::{read_calls, read_setup, Call, Kind, Malformed, Setup};
use crate::select::Patience;
use crate::study::Study;

/// What an accepted call is answered, as its line.
#[derive(Clone, Debug, PartialEq, Eq)]
pub enum Answer {
    Done,
    Value(String),
    Chosen(String),
}

#[derive(Clone, Debug, PartialEq, Eq)]
pub enum Outcome {
    Malformed(usize),
    Refused(Fault),
    Answered(Vec<Result<Answer, Fault>>),
}

impl fmt::Display for Outcome {
    fn fmt(&self, formatter: &mut fmt::Formatter) -> fmt::Result {
        let answers = match self {
            Outcome::Malformed(line) => return writeln!(formatter, "E\t{line}"),
            Outcome::Refused(fault) => return writeln!(formatter, "{fault}"),
            Outcome::Answered(answers) => answers,
        };
        for answer in answers {
            match answer {
                Ok(Answer::Done) => writeln!(formatter, "D")?,
                Ok(Answer::Value(value)) => writeln!(formatter, "V\t{value}")?,
                Ok(Answer::Chosen(line)) => writeln!(formatter, "{line}")?,
                Err(fault) => writeln!(formatter, "{fault}")?,
            }
        }
        Ok(())
    }
}

/// What the script's calls are answered. Nothing if patience ran out.
pub fn answer_script(script: &[u8], patience: Patience) -> Option<Outcome> {
    match read_setup(script) {
        Err(Malformed(line)) => Some(Outcome::Malformed(line)),
        Ok((setup, rest)) => match setup.kind {
            Kind::Tally => answer_calls::<Tally>(setup, rest, patience),
            Kind::Peak => answer_calls::<Peak>(setup, rest, patience),
        },
    }
}

fn answer_calls<F: Figure>(setup: Setup, text: &[u8], patience: Patience) -> Option<Outcome> {
    let (calls, file) = match read_calls::<F>(text) {
        Err(Malformed(line)) => return Some(Outcome::Malformed(line)),
        Ok(read) => read,
    };
    let mut sheet = vec![F::ZERO; setup.sheet_figures];
    let mut work = vec![F::ZERO; setup.work_figures];
    let table = match read_plant(file, &mut sheet) {
        Err(fault) => return Some(Outcome::Refused(fault)),
        Ok(table) => table,
    };
    let mut study = Study::new(&table, &mut sheet, &mut work);
    let mut answers = Vec::new();
    for call in calls {
        answers.push(answer_call(&mut study, setup, call, patience).transpose()?);
    }
    Some(Outcome::Answered(answers))
}

fn answer_call<F: Figure>(
    study: &mut Study<F>,
    setup: Setup,
    call: Call<F>,
    patience: Patience,
) -> Result<Option<Answer>, Fault> {
    let value = |figure: F| Answer::Value(figure.to_string());
    let answer = match call {
        Call::Hold(option, on) => study.hold(option, on).map(|()| Answer::Done)?,
        Call::Release(option) => study.release(option).map(|()| Answer::Done)?,
        Call::Weigh(chance, on, off) => study.weigh(chance, on, off).map(|()| Answer::Done)?,
        Call::Trial(option, on) => study.trial(option, on).map(value)?,
        Call::Figure => study.figure().map(value)?,
        Call::Bound => study.bound().map(value)?,
        Call::Select => {
            let found = study.select(setup.order, patience)?;
            return Ok(found.map(|found| Answer::Chosen(found.line(study.table))));
        }
    };
    Ok(Some(answer))
}
