//! The sorts of cases.

use reference::script::Kind;

use crate::limits::limit_files;
use crate::plants::{any_plant, random_plant, Plant, Size};
use crate::random::Random;
use crate::scripts::{near_line, near_setup, random_script, Script};
use crate::spoil::{
    byte_changes, byte_edits, rubbish, spoiled_weight_text, with_random_bytes,
    with_spoiled_circuit, with_spoiled_lines, with_spoiled_number,
};

/// The figures of the work table that the program `quote` has.
const QUOTE_WORK_FIGURES: usize = 4_096;

/// The figures that a work table of the program `calls` can have.
const CALLS_WORK_FIGURES: usize = 65_535;

const MOST_CALLS: usize = 40;

#[derive(Clone, Copy, PartialEq, Eq)]
pub enum Program {
    Quote,
    Calls,
}

type Cases = Box<dyn Iterator<Item = Vec<u8>>>;

pub struct Sort {
    pub program: Program,
    pub name: &'static str,
    /// How many of a hundred cases are of this sort; none: all that there are.
    pub share: Option<usize>,
    cases: fn(Source) -> Cases,
}

impl Sort {
    pub fn cases(&self, seed: u64) -> Cases {
        (self.cases)(Source {
            seed,
            sort: self.name,
        })
    }
}

/// What the random cases of a sort come from.
#[derive(Clone, Copy)]
struct Source {
    seed: u64,
    sort: &'static str,
}

impl Source {
    fn random(self, case: usize) -> Random {
        Random::of_case(self.seed, self.sort, case)
    }

    fn each(self, make: impl Fn(&mut Random) -> Vec<u8> + 'static) -> Cases {
        Box::new((0..).map(move |case| make(&mut self.random(case))))
    }
}

const fn sort(
    program: Program,
    name: &'static str,
    share: usize,
    cases: fn(Source) -> Cases,
) -> Sort {
    Sort {
        program,
        name,
        share: Some(share),
        cases,
    }
}

const fn list(program: Program, name: &'static str, cases: fn(Source) -> Cases) -> Sort {
    Sort {
        program,
        name,
        share: None,
        cases,
    }
}

pub const SORTS: &[Sort] = &[
    sort(Program::Quote, "plants", 25, |source| {
        source.each(|random| quote_plant(random).text())
    }),
    sort(Program::Quote, "divided-plants", 10, |source| {
        source.each(|random| {
            let size = Size::divided(random, QUOTE_WORK_FIGURES);
            random_plant(random, size, Kind::Tally).text()
        })
    }),
    sort(Program::Quote, "any-circuits", 15, |source| {
        source.each(|random| any_plant(random).text())
    }),
    sort(Program::Quote, "one-byte", 10, |source| {
        source.each(|random| {
            let size = Size::tiny(random);
            let text = random_plant(random, size, Kind::Tally).text();
            with_one_edit(random, text)
        })
    }),
    sort(Program::Quote, "some-bytes", 5, |source| {
        source.each(|random| {
            let text = small_plant(random).text();
            with_random_bytes(random, &text)
        })
    }),
    sort(Program::Quote, "lines", 8, |source| {
        source.each(|random| {
            let text = small_plant(random).text();
            with_spoiled_lines(random, &text)
        })
    }),
    sort(Program::Quote, "numbers", 8, |source| {
        source.each(|random| {
            let text = small_plant(random).text();
            with_spoiled_number(random, &text)
        })
    }),
    sort(Program::Quote, "circuits", 8, |source| {
        source.each(|random| {
            let plant = small_plant(random);
            with_spoiled_circuit(random, &plant).text()
        })
    }),
    sort(Program::Quote, "weight-texts", 6, |source| {
        source.each(|random| {
            let mut plant = small_plant(random);
            let weight_text = spoiled_weight_text(random, &plant);
            plant.weight_lines.clear();
            [plant.text(), weight_text].concat()
        })
    }),
    sort(Program::Quote, "twice", 4, |source| {
        source.each(|random| {
            let plant = small_plant(random);
            let text = with_spoiled_circuit(random, &plant).text();
            let once = spoiled_text(random, &text);
            spoiled_text(random, &once)
        })
    }),
    sort(Program::Quote, "rubbish", 1, |source| source.each(rubbish)),
    list(Program::Quote, "plant-k-bytes", |_| {
        Box::new(byte_edits(plant_k()).chain(byte_changes(plant_k())))
    }),
    list(Program::Quote, "cuts", |_| Box::new(cuts(plant_k()))),
    list(Program::Quote, "limits", |_| {
        Box::new(limit_files().into_iter())
    }),
    sort(Program::Calls, "days", 45, |source| {
        source.each(|random| {
            let size = Size::any(random, 8_000);
            random_script(random, size, MOST_CALLS).text()
        })
    }),
    sort(Program::Calls, "divided-days", 10, |source| {
        source.each(|random| {
            let size = Size::divided(random, 8_000);
            random_script(random, size, MOST_CALLS).text()
        })
    }),
    sort(Program::Calls, "large-days", 4, |source| {
        source.each(|random| {
            let size = Size::large(random, CALLS_WORK_FIGURES);
            random_script(random, size, 10).text()
        })
    }),
    sort(Program::Calls, "script-bytes", 10, |source| {
        source.each(|random| {
            let script = small_script(random, 4);
            let head = with_one_edit(random, script.head());
            [head, script.file].concat()
        })
    }),
    list(Program::Calls, "one-script-bytes", |source| {
        let script = small_script(&mut source.random(0), 7);
        let file = script.file.clone();
        Box::new(byte_edits(script.head()).map(move |head| [head, file.clone()].concat()))
    }),
    sort(Program::Calls, "script-lines", 10, |source| {
        source.each(|random| {
            let script = small_script(random, 10);
            let head = spoiled_text(random, &script.head());
            [head, script.file].concat()
        })
    }),
    sort(Program::Calls, "near-scripts", 10, |source| {
        source.each(|random| {
            let mut script = small_script(random, 6);
            if random.percent(40) {
                script.setup = near_setup(random);
            } else {
                let place = random.below(script.calls.len() + 1);
                script.calls.insert(place, near_line(random));
            }
            script.text()
        })
    }),
    sort(Program::Calls, "script-files", 10, |source| {
        source.each(|random| {
            let mut script = small_script(random, 6);
            script.file = spoiled_text(random, &script.file);
            script.text()
        })
    }),
    sort(Program::Calls, "script-rubbish", 1, |source| {
        source.each(|random| {
            let script = small_script(random, 3);
            [script.head(), rubbish(random)].concat()
        })
    }),
    list(Program::Calls, "script-cuts", |source| {
        let script = small_script(&mut source.random(0), 10);
        Box::new(cuts(script.text()))
    }),
    list(Program::Calls, "script-limits", |_| {
        let head: &[u8] = b"D\ttally\tlean\t128\t65535\nC\tbound\nC\tselect\n";
        let files = limit_files().into_iter();
        Box::new(files.map(move |file| [head, &file].concat()))
    }),
];

fn plant_k() -> Vec<u8> {
    include_bytes!("../../../../examples/plant-k.txt").to_vec()
}

fn quote_plant(random: &mut Random) -> Plant {
    let size = Size::any(random, QUOTE_WORK_FIGURES);
    random_plant(random, size, Kind::Tally)
}

/// A plant of a few variables, or one of any size now and then.
fn small_plant(random: &mut Random) -> Plant {
    let size = match random.below(10) {
        0..4 => Size::tiny(random),
        4..9 => Size::small(random),
        _ => return quote_plant(random),
    };
    random_plant(random, size, Kind::Tally)
}

fn small_script(random: &mut Random, most_calls: usize) -> Script {
    let size = if random.percent(50) {
        Size::tiny(random)
    } else {
        Size::small(random)
    };
    random_script(random, size, most_calls)
}

fn with_one_edit(random: &mut Random, text: Vec<u8>) -> Vec<u8> {
    let edits: Vec<Vec<u8>> = byte_edits(text).collect();
    edits[random.below(edits.len())].clone()
}

fn spoiled_text(random: &mut Random, text: &[u8]) -> Vec<u8> {
    match random.below(3) {
        0 => with_spoiled_lines(random, text),
        1 => with_spoiled_number(random, text),
        _ => with_random_bytes(random, text),
    }
}

/// Every beginning of a text.
fn cuts(text: Vec<u8>) -> impl Iterator<Item = Vec<u8>> {
    (0..=text.len()).map(move |length| text[..length].to_vec())
}
