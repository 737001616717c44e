//! Compares the built programs with the reference, on random inputs.

mod arguments;
mod circuits;
mod limits;
mod plants;
mod program;
mod random;
mod report;
mod scripts;
mod self_check;
mod sorts;
mod spoil;

use std::io::{self, Write};
use std::path::Path;
use std::process::ExitCode;
use std::time::Instant;

use reference::calls::{answer_script, Answer, Outcome};
use reference::quote::quote;
use reference::select::Patience;

use crate::arguments::{Arguments, USAGE};
use crate::report::{Answers, Report, Tried, Verdict};
use crate::sorts::{Program, Sort, SORTS};

/// Cases of which select takes longer are left out.
const PATIENCE: Patience = Patience(20_000_000);

/// How many differences are printed.
const MOST_PRINTED: usize = 20;

fn main() -> ExitCode {
    let Some(arguments) = Arguments::read() else {
        eprint!("{USAGE}");
        return ExitCode::from(2);
    };
    let done = if arguments.show {
        show(&arguments)
    } else {
        compare_all(&arguments)
    };
    match done {
        Ok(true) => ExitCode::SUCCESS,
        Ok(false) => ExitCode::FAILURE,
        Err(error) => {
            eprintln!("compare: {error}");
            ExitCode::from(2)
        }
    }
}

/// Prints the input of one case.
fn show(arguments: &Arguments) -> io::Result<bool> {
    let sort = SORTS.iter().find(|sort| arguments.wants_sort(sort.name));
    let input = sort.and_then(|sort| sort.cases(arguments.seed).nth(arguments.case.unwrap_or(0)));
    let input = input.ok_or(io::Error::other("there is no such case"))?;
    io::stdout().write_all(&input)?;
    Ok(true)
}

fn compare_all(arguments: &Arguments) -> io::Result<bool> {
    if !SORTS.iter().any(|sort| arguments.wants_sort(sort.name)) {
        return Err(io::Error::other("there is no such sort"));
    }
    println!("seed {}", arguments.seed);
    let self_checks = (arguments.cases / 20).max(100);
    match self_check::self_check(arguments.seed, self_checks) {
        Ok(checked) => println!(
            "the reference agrees with brute force: {} plants, {} figures, {} selects",
            checked.plants, checked.figures, checked.selects
        ),
        Err(wrong) => {
            println!("the reference is wrong: {wrong}");
            return Ok(false);
        }
    }
    let mut agrees = true;
    let programs = [
        ("quote", Program::Quote, &arguments.quote),
        ("calls", Program::Calls, &arguments.calls),
    ];
    for (name, program, path) in programs {
        if let Some(path) = path {
            agrees &= compare_program(arguments, name, program, path)?;
        }
    }
    Ok(agrees)
}

fn compare_program(
    arguments: &Arguments,
    name: &str,
    program: Program,
    path: &Path,
) -> io::Result<bool> {
    let mut report = Report::new(name);
    for sort in SORTS.iter().filter(|sort| sort.program == program) {
        if !arguments.wants_sort(sort.name) {
            continue;
        }
        report.begin_sort(sort.name);
        let (first, count) = match (arguments.case, sort.share) {
            (Some(case), _) => (case, 1),
            (None, Some(share)) => (0, arguments.cases * share / 100),
            (None, None) => (0, usize::MAX),
        };
        let cases = sort.cases(arguments.seed).enumerate();
        for (case, input) in cases.skip(first).take(count) {
            compare_case(arguments, sort, case, &input, path, &mut report)?;
        }
    }
    print!("{report}");
    Ok(report.differences() == 0)
}

fn compare_case(
    arguments: &Arguments,
    sort: &Sort,
    case: usize,
    input: &[u8],
    path: &Path,
    report: &mut Report,
) -> io::Result<()> {
    let begin = Instant::now();
    let Some((wanted, verdict)) = wanted(sort.program, input) else {
        report.leave_out();
        return Ok(());
    };
    let reference_time = begin.elapsed();
    let ran = program::run(path, input)?;
    let agrees = ran.output == wanted.as_bytes() && ran.status.code() == Some(0);
    if !agrees && report.differences() < MOST_PRINTED {
        println!("difference: sort {}, case {case}", sort.name);
        println!("  the reference: {wanted:?}");
        let output = String::from_utf8_lossy(&ran.output);
        println!("  the program:   {output:?}, {}", ran.status);
        println!("  once more: {}", arguments.to_repeat(sort.name, case));
        println!("  its input: {}", arguments.to_show(sort.name, case));
    }
    report.add(Tried {
        verdict,
        agrees,
        reference_time,
        program_time: ran.time,
    });
    Ok(())
}

/// What the program has to print, or nothing if that takes too long.
fn wanted(program: Program, input: &[u8]) -> Option<(String, Verdict)> {
    match program {
        Program::Quote => match quote(input, PATIENCE) {
            Ok(lines) => Some((lines?, Verdict::Accepted(Answers::default()))),
            Err(fault) => Some((
                format!("{fault}\n"),
                Verdict::Refused(fault.refusal.number()),
            )),
        },
        Program::Calls => {
            let outcome = answer_script(input, PATIENCE)?;
            let verdict = match &outcome {
                Outcome::Malformed(_) => Verdict::Malformed,
                Outcome::Refused(fault) => Verdict::Refused(fault.refusal.number()),
                Outcome::Answered(answers) => Verdict::Accepted(count_answers(answers)),
            };
            Some((outcome.to_string(), verdict))
        }
    }
}

fn count_answers(answers: &[Result<Answer, reference::fault::Fault>]) -> Answers {
    let mut counts = Answers::default();
    for answer in answers {
        match answer {
            Ok(Answer::Done) => counts.done += 1,
            Ok(Answer::Value(_)) => counts.values += 1,
            Ok(Answer::Chosen(_)) => counts.chosen += 1,
            Err(fault) => counts.refusals.push(fault.refusal.number()),
        }
    }
    counts
}
