//! Times the engine's program `bench` and the reference on the same plants, by turns.

mod measure;
mod plants;

use std::env;
use std::io::{self, Write};
use std::path::{Path, PathBuf};
use std::process::ExitCode;

use crate::measure::{engine_lines, reference_lines, Line, Task};

/// How often each task is timed on each side. The least time counts.
const ROUNDS: usize = 5;

/// A plant, and what is timed on it.
struct Measured {
    name: &'static str,
    file: Vec<u8>,
    tasks: Vec<(Task, u16, u32)>,
}

const USAGE: &str = "\
usage: speed PATH-OF-BENCH
       speed --show PLANT
";

fn main() -> ExitCode {
    let words: Vec<String> = env::args().skip(1).collect();
    let words: Vec<&str> = words.iter().map(String::as_str).collect();
    let done = match words.as_slice() {
        ["--show", name] => show(name),
        [bench] => compare_all(&PathBuf::from(bench)),
        _ => {
            eprint!("{USAGE}");
            return ExitCode::from(2);
        }
    };
    match done {
        Ok(()) => ExitCode::SUCCESS,
        Err(error) => {
            eprintln!("speed: {error}");
            ExitCode::FAILURE
        }
    }
}

/// Prints a plant's file.
fn show(name: &str) -> io::Result<()> {
    let plants = measured();
    let plant = plants.iter().find(|plant| plant.name == name);
    let plant = plant.ok_or(io::Error::other("there is no such plant"))?;
    io::stdout().write_all(&plant.file)
}

fn measured() -> Vec<Measured> {
    vec![
        Measured {
            name: "largest",
            file: plants::largest(),
            tasks: vec![
                (Task::Read, 0, 200),
                (Task::Bound, 0, 100),
                (Task::Bound, 10, 100),
                (Task::Bound, 20, 200),
                (Task::Select, 10, 1),
                (Task::Select, 20, 100),
            ],
        },
        Measured {
            name: "exact-bound",
            file: plants::exact_bound(),
            tasks: vec![
                (Task::Read, 0, 2_000),
                (Task::Bound, 0, 2_000),
                (Task::Select, 0, 100),
            ],
        },
        Measured {
            name: "loose-bound",
            file: plants::loose_bound(),
            tasks: vec![
                (Task::Read, 0, 2_000),
                (Task::Bound, 0, 2_000),
                (Task::Select, 0, 5),
            ],
        },
    ]
}

/// Prints a table: for each task the least time on each side, and how many times as long the
/// reference takes.
fn compare_all(bench: &Path) -> io::Result<()> {
    println!(
        "| plant | task | kind | held | answer | engine, µs | reference, µs | reference / engine |"
    );
    println!("|---|---|---|---|---|---|---|---|");
    for plant in measured() {
        for &(task, held, repeats) in &plant.tasks {
            let mut engine = engine_lines(bench, &plant.file, task, held, repeats)?;
            let mut reference = reference_lines(&plant.file, task, held, repeats);
            for _ in 1..ROUNDS {
                let again = engine_lines(bench, &plant.file, task, held, repeats)?;
                keep_least(&mut engine, &again);
                keep_least(
                    &mut reference,
                    &reference_lines(&plant.file, task, held, repeats),
                );
            }
            print_rows(plant.name, &engine, &reference)?;
        }
    }
    Ok(())
}

fn keep_least(lines: &mut [Line], again: &[Line]) {
    for (line, other) in lines.iter_mut().zip(again) {
        line.nanoseconds = line.nanoseconds.min(other.nanoseconds);
    }
}

fn print_rows(plant: &str, engine: &[Line], reference: &[Line]) -> io::Result<()> {
    if engine.len() != reference.len() {
        return Err(io::Error::other("not as many answers on both sides"));
    }
    for (ours, theirs) in engine.iter().zip(reference) {
        if ours.said != theirs.said {
            let message = format!("{:?} and {:?} differ", ours.said, theirs.said);
            return Err(io::Error::other(message));
        }
        println!(
            "| {plant} | {} | {:.1} | {:.1} | {:.2} |",
            ours.said.join(" | "),
            ours.nanoseconds as f64 / 1e3,
            theirs.nanoseconds as f64 / 1e3,
            theirs.nanoseconds as f64 / ours.nanoseconds as f64
        );
    }
    Ok(())
}
