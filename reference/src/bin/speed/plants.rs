//! The plants that are measured, as table files with their weight texts.

/// How a plant's circuit is written, node by node.
#[derive(Default)]
struct Circuit {
    lines: Vec<String>,
    children: usize,
}

impl Circuit {
    fn add(&mut self, line: String, children: usize) -> usize {
        self.lines.push(line);
        self.children += children;
        self.lines.len() - 1
    }

    fn literal(&mut self, variable: usize, on: bool) -> usize {
        let sign = if on { "" } else { "-" };
        self.add(format!("L\t{sign}{variable}"), 0)
    }

    fn and(&mut self, children: &[usize]) -> usize {
        let fields: Vec<String> = children.iter().map(usize::to_string).collect();
        self.add(format!("A\t{}", fields.join("\t")), children.len())
    }

    fn fork(&mut self, variable: usize, on: usize, off: usize) -> usize {
        self.add(format!("O\t{variable}\t{on}\t{off}"), 2)
    }

    /// The two literals of each variable, as the first nodes.
    fn with_literals(variables: usize) -> Self {
        let mut circuit = Circuit::default();
        for variable in 1..=variables {
            circuit.literal(variable, true);
            circuit.literal(variable, false);
        }
        circuit
    }

    /// The table file, in which the options come first, with a weight line for each chance.
    fn file(&self, options: usize, weights: &[(usize, usize)]) -> Vec<u8> {
        let variables = options + weights.len();
        let mut text = format!("G\t{variables}\t{}\t{}\n", self.lines.len(), self.children);
        for variable in 1..=variables {
            let role = if variable <= options { 'E' } else { 'R' };
            text += &format!("V\t{variable}\t{role}\tv{variable}\n");
        }
        for line in &self.lines {
            text += line;
            text.push('\n');
        }
        for (index, (on, off)) in weights.iter().enumerate() {
            text += &format!("W\t{}\t{on}\t{off}\n", options + 1 + index);
        }
        text.into_bytes()
    }
}

/// Where the literal of a variable stands in a circuit that begins with all literals.
fn literal_at(variable: usize, on: bool) -> usize {
    2 * variable - if on { 2 } else { 1 }
}

/// 4,096 nodes, 64 variables, 20 options, in a file of nearly the largest size. It is built as a
/// compiler of rules would, by levels of forks, each over forks of the level below. Two lower parts
/// decide ten options and six chances each. Over both stands an upper part that decides the other
/// chances, two at a time, so that most nodes mention every option.
pub fn largest() -> Vec<u8> {
    const FIRST: [usize; 16] = [1, 2, 21, 3, 4, 22, 5, 6, 23, 7, 8, 24, 9, 10, 25, 26];
    const SECOND: [usize; 16] = [
        11, 12, 27, 13, 14, 28, 15, 16, 29, 17, 18, 30, 19, 20, 31, 32,
    ];
    const UPPER_WIDTHS: [usize; 16] = [
        99, 101, 101, 101, 101, 101, 101, 101, 101, 64, 32, 16, 8, 4, 2, 1,
    ];
    let mut circuit = Circuit::with_literals(64);
    let truth = circuit.add(String::from("T"), 0);
    let falsity = circuit.add(String::from("F"), 0);
    let mut lower = [FIRST, SECOND].map(|part| {
        let mut below = vec![truth, falsity, truth];
        for variable in part {
            below = (0..9)
                .map(|place| {
                    let branch = |on: bool| {
                        let chosen = below[(2 * place + usize::from(!on)) % below.len()];
                        [literal_at(variable, on), chosen]
                    };
                    let branches = [true, false].map(branch);
                    let [on, off] = branches.map(|children| circuit.and(&children));
                    circuit.fork(variable, on, off)
                })
                .collect();
        }
        below
    });
    let mut beside = std::mem::take(&mut lower[1]);
    let mut below = std::mem::take(&mut lower[0]);
    for (width, variable) in UPPER_WIDTHS.into_iter().zip((33..64).step_by(2)) {
        below = (0..width)
            .map(|place| {
                let branch = |on: bool| {
                    let place = 2 * place + usize::from(!on);
                    let mut children = vec![
                        literal_at(variable, on),
                        literal_at(variable + 1, on != (place % 3 == 0)),
                        below[place % below.len()],
                    ];
                    if !beside.is_empty() {
                        children.push(beside[place / 9 % beside.len()]);
                    }
                    children
                };
                let branches = [true, false].map(branch);
                let [on, off] = branches.map(|children| circuit.and(&children));
                circuit.fork(variable, on, off)
            })
            .collect();
        beside.clear();
    }
    circuit.file(20, &[(1, 2); 44])
}

/// Each of 20 options has two chances of its own, and serves the hall if they agree or if they do
/// not: the bound is exact.
pub fn exact_bound() -> Vec<u8> {
    const OPTIONS: usize = 20;
    let mut circuit = Circuit::with_literals(3 * OPTIONS);
    let parts: Vec<usize> = (1..=OPTIONS)
        .map(|option| {
            let (first, second) = (OPTIONS + 2 * option - 1, OPTIONS + 2 * option);
            let [on, off] = [true, false].map(|first_on| {
                let [on, off] = [true, false].map(|second_on| {
                    let served = literal_at(option, first_on == second_on);
                    circuit.and(&[literal_at(second, second_on), served])
                });
                let rest = circuit.fork(second, on, off);
                circuit.and(&[literal_at(first, first_on), rest])
            });
            circuit.fork(first, on, off)
        })
        .collect();
    circuit.and(&parts);
    let weights: Vec<(usize, usize)> = (0..2 * OPTIONS).map(|i| (1 + i % 3, 2 - i % 2)).collect();
    circuit.file(OPTIONS, &weights)
}

/// In each of 64 scenarios three of 12 options must stand as that scenario needs them. Most scenarios
/// can be served, but not together, and the bound adds nearly all of them.
pub fn loose_bound() -> Vec<u8> {
    const OPTIONS: usize = 12;
    const CHANCES: usize = 6;
    let mut circuit = Circuit::with_literals(OPTIONS + CHANCES);
    let mut below: Vec<usize> = (0..1 << CHANCES)
        .map(|scenario| {
            let needs = [0, 1, 2].map(|place| {
                let option = 1 + 4 * place + (scenario * 7 + scenario / 5 + place) % 4;
                literal_at(option, (scenario * 5 + scenario / 3) >> place & 1 == 1)
            });
            circuit.and(&needs)
        })
        .collect();
    for chance in OPTIONS + 1..=OPTIONS + CHANCES {
        below = below
            .chunks(2)
            .map(|pair| {
                let on = circuit.and(&[literal_at(chance, true), pair[0]]);
                let off = circuit.and(&[literal_at(chance, false), pair[1]]);
                circuit.fork(chance, on, off)
            })
            .collect();
    }
    let weights = [(3, 4), (5, 4), (2, 3), (7, 6), (4, 5), (5, 5)];
    circuit.file(OPTIONS, &weights)
}
