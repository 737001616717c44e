//! Scripts of calls, with the plant that they are made on.

use reference::script::Kind;
use reference::variables::Role;

use crate::plants::{random_figure, random_plant, Plant, Size, Weights};
use crate::random::Random;

/// A setup line, lines of calls, and the plant's file.
pub struct Script {
    pub setup: String,
    pub calls: Vec<String>,
    pub file: Vec<u8>,
}

impl Script {
    /// The lines in front of the file.
    pub fn head(&self) -> Vec<u8> {
        let mut head = self.setup.clone() + "\n";
        for call in &self.calls {
            head += call;
            head.push('\n');
        }
        head.into_bytes()
    }

    pub fn text(&self) -> Vec<u8> {
        [self.head(), self.file.clone()].concat()
    }
}

pub fn kind_name(kind: Kind) -> &'static str {
    match kind {
        Kind::Tally => "tally",
        Kind::Peak => "peak",
    }
}

pub fn random_kind(random: &mut Random) -> Kind {
    random.one_of(&[Kind::Tally, Kind::Peak])
}

/// A day of up to so many calls on a random plant, about as large as this.
pub fn random_script(random: &mut Random, size: Size, most_calls: usize) -> Script {
    let kind = random_kind(random);
    let plant = random_plant(random, size, kind);
    let calls = random_calls(random, &plant, kind, most_calls);
    Script {
        setup: random_setup(random, &plant, kind),
        calls,
        file: plant.text(),
    }
}

/// Stores that are mostly long enough.
fn random_setup(random: &mut Random, plant: &Plant, kind: Kind) -> String {
    let longest = usize::from(u16::MAX);
    let least_sheet = 2 * plant.variables.len();
    let sheet = match random.below(100) {
        0..60 => least_sheet,
        60..95 => random.between(least_sheet, longest),
        95..98 => least_sheet - 1,
        _ => random.below(least_sheet),
    };
    let least_work = plant.pair_places();
    let nodes = plant.nodes.len();
    let work = match random.below(100) {
        0..50 => least_work,
        50..65 => longest,
        65..70 => least_work + random.below(50),
        70..78 => least_work - 1,
        78..84 => nodes,
        84..88 => nodes - 1,
        88..90 => 0,
        _ => random.below(least_work),
    };
    let kind = kind_name(kind);
    let order = random.one_of(&["number", "lean"]);
    format!("D\t{kind}\t{order}\t{sheet}\t{}", work.min(longest))
}

fn random_calls(random: &mut Random, plant: &Plant, kind: Kind, most: usize) -> Vec<String> {
    let weights = Weights::any(random, kind, plant);
    let options = plant.numbers(Role::Option);
    let mut calls = Vec::new();
    let wanted = random.between(0, most);
    while calls.len() < wanted {
        let side = random.one_of(&["on", "off"]);
        match random.below(100) {
            0..22 => {
                let option = some_number(random, plant, Role::Option);
                calls.push(format!("C\thold\t{option}\t{side}"));
            }
            22..34 => {
                let option = some_number(random, plant, Role::Option);
                calls.push(format!("C\trelease\t{option}"));
            }
            34..48 => {
                let chance = some_number(random, plant, Role::Chance);
                let on = random_figure(random, kind, weights);
                let off = random_figure(random, kind, weights);
                calls.push(format!("C\tweigh\t{chance}\t{on}\t{off}"));
            }
            48..60 => {
                let option = some_number(random, plant, Role::Option);
                calls.push(format!("C\ttrial\t{option}\t{side}"));
            }
            60..72 => calls.push(String::from("C\tfigure")),
            72..84 => calls.push(String::from("C\tbound")),
            84..96 => calls.push(String::from("C\tselect")),
            _ => {
                for &option in &options {
                    let side = random.one_of(&["on", "off"]);
                    calls.push(format!("C\thold\t{option}\t{side}"));
                }
                calls.push(String::from("C\tfigure"));
            }
        }
    }
    calls
}

/// The number of a variable with this role, mostly.
fn some_number(random: &mut Random, plant: &Plant, role: Role) -> u16 {
    let count = plant.variables.len() as u16;
    let numbers = plant.numbers(role);
    match random.below(100) {
        0..84 if !numbers.is_empty() => random.one_of(&numbers),
        84..94 => random.between(1, usize::from(count)) as u16,
        _ => random.one_of(&[
            0,
            count + 1,
            63,
            64,
            65,
            66,
            255,
            256,
            32_768,
            65_534,
            65_535,
        ]),
    }
}

/// A line that is of a form of a script, or near one.
pub fn near_line(random: &mut Random) -> String {
    let lines = [
        "C",
        "C\t",
        "C\t\t",
        "c\tbound",
        "C bound",
        "CC\tbound",
        " C\tbound",
        "C\tbound\t",
        "C\tbound\r",
        "C\tBound",
        "C\tbounds",
        "C\tfigure\t",
        "C\tfigure\t1",
        "C\tselect\t1",
        "C\tselect\tnumber",
        "C\thold",
        "C\thold\t1",
        "C\thold\t1\t",
        "C\thold\t1\tOn",
        "C\thold\t1\tof",
        "C\thold\t01\ton",
        "C\thold\t-1\ton",
        "C\thold\t65536\ton",
        "C\thold\t65535\ton",
        "C\thold\t1\ton\t",
        "C\thold\t\ton",
        "C\thold\ton\t1",
        "C\trelease",
        "C\trelease\t",
        "C\trelease\t1\ton",
        "C\trelease\t+1",
        "C\trelease\t1",
        "C\trelease\t0",
        "C\ttrial\t1",
        "C\ttrial\t1\ton",
        "C\ttrial\t1\t1",
        "C\ttrial\t1\toff\toff",
        "C\tweigh\t1",
        "C\tweigh\t1\t2",
        "C\tweigh\t1\t2\t3",
        "C\tweigh\t1\t2\t3\t4",
        "C\tweigh\t1\t-\t-",
        "C\tweigh\t1\t-\t07",
        "C\tweigh\t1\t4294967295\t0",
        "C\tweigh\t1\t4294967296\t0",
        "C\tweigh\t1\t18446744073709551615\t0",
        "C\tweigh\t1\t18446744073709551616\t0",
        "C\tweigh\t2\t0\t",
        "C\tweigh\t65536\t1\t1",
        "C\tweigh\t2\t--\t1",
        "C\tweigh\t2\t-1\t1",
        "C\tweigh\tx\t1\t1",
        "C\tquote",
        "",
        "\t",
        "D",
        "C\t\u{1}",
        "C\tbound\u{7f}",
    ];
    random.one_of(&lines).to_string()
}

/// A setup line that is of the form, or near it.
pub fn near_setup(random: &mut Random) -> String {
    if random.percent(25) {
        let lines = [
            "",
            "D",
            "D\t",
            "D\ttally",
            "D\ttally\tnumber",
            "D\ttally\tnumber\t4",
            "D\ttally\tnumber\t4\t21\t",
            "D\ttally\tnumber\t4\t21\t0",
            "d\ttally\tnumber\t4\t21",
            "DD\ttally\tnumber\t4\t21",
            "D tally number 4 21",
            "\tD\ttally\tnumber\t4\t21",
        ];
        return random.one_of(&lines).to_string();
    }
    let kind = random.one_of(&[
        "tally", "peak", "tally", "peak", "tally", "Tally", "", "peaks",
    ]);
    let order = random.one_of(&[
        "number",
        "lean",
        "number",
        "lean",
        "Lean",
        "",
        "strongest lean",
    ]);
    let counts = [(); 2].map(|()| {
        random.one_of(&[
            "65535",
            "65535",
            "65535",
            "1000",
            "1000",
            "128",
            "0",
            "1",
            "65536",
            "-1",
            "+1",
            "01",
            "00",
            "",
            "x",
            "65535 ",
            "4294967296",
            "18446744073709551616",
        ])
    });
    format!("D\t{kind}\t{order}\t{}\t{}", counts[0], counts[1])
}
