//! Times one task on each side.

use std::fmt::Display;
use std::hint::black_box;
use std::io::{self, Write};
use std::path::Path;
use std::process::{Command, Stdio};
use std::time::Instant;

use reference::check::{check, Table};
use reference::figure::{Figure, Peak, Tally};
use reference::order::Order;
use reference::passes::pair_places;
use reference::plant::read_plant;
use reference::select::Patience;
use reference::study::Study;
use reference::table_file::{read_table_file, Room};

#[derive(Clone, Copy, PartialEq, Eq)]
pub enum Task {
    Read,
    Bound,
    Select,
}

/// What a side says of one task: the task, the kind, how many options are held, and the answer; and
/// how long it has taken.
pub struct Line {
    pub said: Vec<String>,
    pub nanoseconds: u64,
}

/// What the program `bench` prints.
pub fn engine_lines(
    bench: &Path,
    file: &[u8],
    task: Task,
    held: u16,
    repeats: u32,
) -> io::Result<Vec<Line>> {
    let name = match task {
        Task::Read => "read",
        Task::Bound => "bound",
        Task::Select => "select",
    };
    let mut child = Command::new(bench)
        .args([name, &held.to_string(), &repeats.to_string()])
        .stdin(Stdio::piped())
        .stdout(Stdio::piped())
        .spawn()?;
    let mut input = child.stdin.take().ok_or(io::Error::other("no pipe"))?;
    input.write_all(file)?;
    drop(input);
    let output = child.wait_with_output()?.stdout;
    String::from_utf8_lossy(&output)
        .lines()
        .map(|line| line_of(line).ok_or_else(|| io::Error::other(line)))
        .collect()
}

fn line_of(text: &str) -> Option<Line> {
    let (said, nanoseconds) = text.rsplit_once('\t')?;
    Some(Line {
        said: said.split('\t').map(String::from).collect(),
        nanoseconds: nanoseconds.parse().ok()?,
    })
}

/// The same of the reference.
pub fn reference_lines(file: &[u8], task: Task, held: u16, repeats: u32) -> Vec<Line> {
    if task == Task::Read {
        let (nodes, nanoseconds) = timed(repeats, || {
            let table = read_table_file(black_box(file), Room::FULL).and_then(check);
            table.map_or(0, |table| table.nodes().len())
        });
        return vec![line(
            "read",
            "",
            String::new(),
            format!("{nodes} nodes"),
            nanoseconds,
        )];
    }
    let mut lines = kind_lines::<Tally>(file, "tally", task, held, repeats);
    lines.extend(kind_lines::<Peak>(file, "peak", task, held, repeats));
    lines
}

fn kind_lines<F: Figure>(
    file: &[u8],
    kind: &str,
    task: Task,
    held: u16,
    repeats: u32,
) -> Vec<Line> {
    let mut sheet = [F::ZERO; 128];
    let table = read_plant(file, &mut sheet).expect("the plants are sound");
    let mut work = vec![F::ZERO; pair_places(&table)];
    let mut study = Study::new(&table, &mut sheet, &mut work);
    hold_first(&table, &mut study, held);
    if task == Task::Bound {
        let (bound, nanoseconds) = timed(repeats, || study.bound().expect("nothing is refused"));
        return vec![line("bound", kind, held, bound, nanoseconds)];
    }
    [("number", Order::Number), ("lean", Order::StrongestLean)]
        .map(|(name, order)| {
            let (found, nanoseconds) = timed(repeats, || {
                let found = study.select(order, Patience::ENDLESS);
                found
                    .expect("nothing is refused")
                    .expect("patience is endless")
            });
            let best = found
                .best
                .map_or(String::from("none"), |best| best.figure.to_string());
            let answer = format!("{} openings, {best}", found.openings);
            line(
                "select",
                &format!("{kind} {name}"),
                held,
                answer,
                nanoseconds,
            )
        })
        .into()
}

/// Holds the first options, on and off by turns.
fn hold_first<F: Figure>(table: &Table, study: &mut Study<F>, count: u16) {
    for (index, &option) in table.options().iter().take(usize::from(count)).enumerate() {
        study
            .hold(option, index % 2 == 0)
            .expect("the option is free");
    }
}

/// The answer, and the nanoseconds that one run takes.
fn timed<A>(repeats: u32, mut task: impl FnMut() -> A) -> (A, u64) {
    let start = Instant::now();
    let mut answer = task();
    for _ in 1..repeats {
        answer = black_box(task());
    }
    let each = start.elapsed() / repeats;
    (answer, each.as_nanos() as u64)
}

fn line(
    task: &str,
    kind: &str,
    held: impl Display,
    answer: impl Display,
    nanoseconds: u64,
) -> Line {
    let said = format!("{task}\t{kind}\t{held}\t{answer}");
    Line {
        said: said.split('\t').map(String::from).collect(),
        nanoseconds,
    }
}
