//! What was tried, and what came of it.

use std::collections::BTreeMap;
use std::fmt;
use std::time::Duration;

/// How the calls of an accepted script were answered.
#[derive(Default)]
pub struct Answers {
    pub done: usize,
    pub values: usize,
    pub chosen: usize,
    pub refusals: Vec<usize>,
}

pub enum Verdict {
    Accepted(Answers),
    Refused(usize),
    Malformed,
}

pub struct Tried {
    pub verdict: Verdict,
    pub agrees: bool,
    pub reference_time: Duration,
    pub program_time: Duration,
}

#[derive(Default)]
struct Counts {
    name: &'static str,
    cases: usize,
    accepted: usize,
    refused: usize,
    malformed: usize,
    left_out: usize,
    differences: usize,
}

pub struct Report {
    program: String,
    sorts: Vec<Counts>,
    refusals: BTreeMap<usize, usize>,
    call_refusals: BTreeMap<usize, usize>,
    answers: Answers,
    reference_time: Duration,
    program_time: Duration,
    slowest: (Duration, Duration),
}

impl Report {
    pub fn new(program: &str) -> Self {
        Report {
            program: String::from(program),
            sorts: Vec::new(),
            refusals: BTreeMap::new(),
            call_refusals: BTreeMap::new(),
            answers: Answers::default(),
            reference_time: Duration::ZERO,
            program_time: Duration::ZERO,
            slowest: (Duration::ZERO, Duration::ZERO),
        }
    }

    pub fn begin_sort(&mut self, name: &'static str) {
        self.sorts.push(Counts {
            name,
            ..Counts::default()
        });
    }

    pub fn leave_out(&mut self) {
        self.last().left_out += 1;
    }

    pub fn add(&mut self, tried: Tried) {
        let counts = self.last();
        counts.cases += 1;
        counts.differences += usize::from(!tried.agrees);
        match tried.verdict {
            Verdict::Malformed => counts.malformed += 1,
            Verdict::Refused(number) => {
                counts.refused += 1;
                *self.refusals.entry(number).or_default() += 1;
            }
            Verdict::Accepted(answers) => {
                counts.accepted += 1;
                self.answers.done += answers.done;
                self.answers.values += answers.values;
                self.answers.chosen += answers.chosen;
                for number in answers.refusals {
                    *self.call_refusals.entry(number).or_default() += 1;
                }
            }
        }
        self.reference_time += tried.reference_time;
        self.program_time += tried.program_time;
        if tried.program_time > self.slowest.0 {
            self.slowest = (tried.program_time, tried.reference_time);
        }
    }

    pub fn differences(&self) -> usize {
        self.sum(|counts| counts.differences)
    }

    fn sum(&self, count: impl Fn(&Counts) -> usize) -> usize {
        self.sorts.iter().map(count).sum()
    }

    fn last(&mut self) -> &mut Counts {
        self.sorts.last_mut().expect("a sort has begun")
    }
}

impl fmt::Display for Report {
    fn fmt(&self, formatter: &mut fmt::Formatter) -> fmt::Result {
        let heads = [
            "cases",
            "accepted",
            "refused",
            "malformed",
            "left out",
            "differences",
        ];
        write!(formatter, "\n{:16}", self.program)?;
        for head in heads {
            write!(formatter, "{head:>12}")?;
        }
        writeln!(formatter)?;
        let all = Counts {
            name: "all",
            cases: self.sum(|counts| counts.cases),
            accepted: self.sum(|counts| counts.accepted),
            refused: self.sum(|counts| counts.refused),
            malformed: self.sum(|counts| counts.malformed),
            left_out: self.sum(|counts| counts.left_out),
            differences: self.differences(),
        };
        for counts in self.sorts.iter().chain([&all]) {
            write!(formatter, "{:16}", counts.name)?;
            for count in [
                counts.cases,
                counts.accepted,
                counts.refused,
                counts.malformed,
                counts.left_out,
                counts.differences,
            ] {
                write!(formatter, "{count:12}")?;
            }
            writeln!(formatter)?;
        }
        write_refusals(formatter, "refusals of inputs", &self.refusals)?;
        let Answers {
            done,
            values,
            chosen,
            ..
        } = self.answers;
        if done + values + chosen > 0 {
            writeln!(
                formatter,
                "calls answered: done {done}, with a figure {values}, by select {chosen}"
            )?;
            write_refusals(formatter, "refusals of calls", &self.call_refusals)?;
        }
        writeln!(
            formatter,
            "time, starting the program included: {:.1?}, the reference {:.1?}; slowest case: {:.1?}, the reference {:.1?}",
            self.program_time, self.reference_time, self.slowest.0, self.slowest.1
        )
    }
}

fn write_refusals(
    formatter: &mut fmt::Formatter,
    head: &str,
    refusals: &BTreeMap<usize, usize>,
) -> fmt::Result {
    let each: Vec<String> = refusals
        .iter()
        .map(|(number, count)| format!("{number} ({count})"))
        .collect();
    writeln!(formatter, "{head}, by number: {}", each.join(", "))
}
