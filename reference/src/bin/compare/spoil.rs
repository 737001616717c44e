//! Spoils texts and circuits, in small ways and large.

use reference::table_file::Node;
use reference::variables::{Role, Variable};

use crate::plants::Plant;
use crate::random::Random;

/// Bytes that mean something somewhere, and their neighbours.
const TELLING_BYTES: &[u8] = b"\t\n\r -+01259AEFGLORTVW.\x00\x0b\x1f\x7e\x7f\x80\xff";

/// The edits of one byte: each byte deleted, doubled and changed, and others
/// put in front of it.
pub fn byte_edits(text: Vec<u8>) -> impl Iterator<Item = Vec<u8>> {
    (0..=text.len()).flat_map(move |place| {
        let mut edited = Vec::new();
        for &byte in TELLING_BYTES {
            edited.push(with(&text, place, 0, &[byte]));
        }
        if let Some(&byte) = text.get(place) {
            edited.push(with(&text, place, 1, &[]));
            edited.push(with(&text, place, 1, &[byte, byte]));
            let neighbours = [byte.wrapping_add(1), byte.wrapping_sub(1), byte ^ 0x20];
            for &other in TELLING_BYTES.iter().chain(&neighbours) {
                edited.push(with(&text, place, 1, &[other]));
            }
        }
        edited
    })
}

/// Each byte changed to each of the 256 in turn.
pub fn byte_changes(text: Vec<u8>) -> impl Iterator<Item = Vec<u8>> {
    (0..text.len()).flat_map(move |place| {
        let text = text.clone();
        (0..=u8::MAX).map(move |byte| with(&text, place, 1, &[byte]))
    })
}

/// The text with some bytes taken out at a place, and others put there.
fn with(text: &[u8], place: usize, taken: usize, put: &[u8]) -> Vec<u8> {
    [&text[..place], put, &text[place + taken..]].concat()
}

pub fn with_random_bytes(random: &mut Random, text: &[u8]) -> Vec<u8> {
    let mut text = text.to_vec();
    for _ in 0..random.between(1, 3) {
        let place = random.below(text.len() + 1);
        let taken = random.below(2).min(text.len() - place);
        let put: Vec<u8> = (0..random.below(3))
            .map(|_| match random.below(3) {
                0 => random.byte(),
                _ => random.one_of(TELLING_BYTES),
            })
            .collect();
        text = with(&text, place, taken, &put);
    }
    text
}

/// A text with its lines exchanged, dropped, repeated, joined or parted.
pub fn with_spoiled_lines(random: &mut Random, text: &[u8]) -> Vec<u8> {
    let mut lines: Vec<Vec<u8>> = text
        .split_inclusive(|&byte| byte == b'\n')
        .map(<[u8]>::to_vec)
        .collect();
    if lines.is_empty() {
        return b"\n".to_vec();
    }
    let line = random.below(lines.len());
    let other = random.below(lines.len());
    let next = (line + 1) % lines.len();
    match random.below(12) {
        0 => lines.swap(line, other),
        1 => lines.swap(line, next),
        2 => drop(lines.remove(line)),
        3 => lines.insert(line, lines[line].clone()),
        4 => lines.insert(other, lines[line].clone()),
        5 => {
            let moved = lines.remove(line);
            lines.insert(other.min(lines.len()), moved);
        }
        6 => drop(lines[line].pop()),
        7 => {
            let place = random.below(lines[line].len() + 1);
            let put = random.one_of(b"\n\t");
            lines[line].insert(place, put);
        }
        8 => lines.insert(line, b"\n".to_vec()),
        9 => {
            let place = lines[line].len() - 1;
            let put = random.one_of(b"\t\r ");
            lines[line].insert(place, put);
        }
        10 => with_spoiled_field(random, &mut lines[line]),
        _ => lines.truncate(line),
    }
    lines.concat()
}

/// Drops, doubles, empties or exchanges fields of a line.
fn with_spoiled_field(random: &mut Random, line: &mut Vec<u8>) {
    let closed = line.last() == Some(&b'\n');
    let text = line.strip_suffix(b"\n").unwrap_or(line);
    let mut fields: Vec<Vec<u8>> = text
        .split(|&byte| byte == b'\t')
        .map(<[u8]>::to_vec)
        .collect();
    let field = random.below(fields.len());
    let other = random.below(fields.len());
    match random.below(4) {
        0 => drop(fields.remove(field)),
        1 => fields.insert(field, fields[field].clone()),
        2 => fields[field].clear(),
        _ => fields.swap(field, other),
    }
    *line = fields.join(&b'\t');
    if closed {
        line.push(b'\n');
    }
}

/// A text with one of its numbers changed.
pub fn with_spoiled_number(random: &mut Random, text: &[u8]) -> Vec<u8> {
    let starts: Vec<usize> = (0..text.len())
        .filter(|&place| {
            text[place].is_ascii_digit() && (place == 0 || !text[place - 1].is_ascii_digit())
        })
        .collect();
    if starts.is_empty() {
        return text.to_vec();
    }
    let start = random.one_of(&starts);
    let length = text[start..]
        .iter()
        .take_while(|byte| byte.is_ascii_digit())
        .count();
    let digits = String::from_utf8_lossy(&text[start..start + length]);
    let number: u128 = digits.parse().unwrap_or(0);
    let changed = match random.below(16) {
        0..3 => (number + 1).to_string(),
        3..6 => number.saturating_sub(1).to_string(),
        6 => format!("0{digits}"),
        7 => format!("-{digits}"),
        8 => format!("+{digits}"),
        9 => String::new(),
        10 => String::from("0"),
        11 => random.between(65_534, 65_537).to_string(),
        12 => (u128::from(u64::MAX) + random.below(3) as u128 - 1).to_string(),
        13 => (u128::from(u32::MAX) + random.below(3) as u128 - 1).to_string(),
        14 => random.below(100).to_string(),
        _ => format!("{digits}{}", random.below(10)),
    };
    with(text, start, length, changed.as_bytes())
}

/// A plant with something wrong with its circuit, or with its variables.
pub fn with_spoiled_circuit(random: &mut Random, plant: &Plant) -> Plant {
    let mut plant = plant.clone();
    let count = plant.nodes.len();
    let place = random.below(count);
    let some_child = match random.below(10) {
        0 => random.below(count + 3),
        _ => random.below(place.max(1)),
    };
    match random.below(13) {
        0 => {
            let other = random.below(count);
            plant.nodes.swap(place, other);
        }
        1 => plant.nodes[place] = Node::And(vec![some_child, random.below(place.max(1))]),
        2 if count > 1 => drop(plant.nodes.pop()),
        3 => plant
            .nodes
            .push(random.one_of(&[&Node::True, &Node::False]).clone()),
        4 => {
            let variable = random.below(plant.variables.len());
            let role = &mut plant.variables[variable].role;
            *role = match role {
                Role::Option => Role::Chance,
                Role::Chance => Role::Option,
            };
        }
        5 => plant.variables.push(Variable {
            role: random.one_of(&[Role::Option, Role::Chance]),
            name: format!("one more {}", random.below(100)),
        }),
        6 => drop(plant.variables.pop()),
        8 => {
            let other = random.below(plant.variables.len());
            let variable = random.below(plant.variables.len());
            plant.variables[variable].name = plant.variables[other].name.clone();
        }
        7 => {
            let copied = random
                .one_of(&plant.nodes.iter().collect::<Vec<_>>())
                .clone();
            plant.nodes[place] = copied;
        }
        _ => {
            let variables = plant.variables.len() as u16;
            let places: Vec<usize> = (0..count)
                .filter(|&place| !matches!(plant.nodes[place], Node::True | Node::False))
                .collect();
            if let Some(&first) = places.first() {
                let place = if random.percent(5) {
                    first
                } else {
                    random.one_of(&places)
                };
                spoil_node(random, &mut plant.nodes[place], some_child, variables);
            }
        }
    }
    plant
}

fn spoil_node(random: &mut Random, node: &mut Node, some_child: usize, variables: u16) {
    let some_variable = random.below(usize::from(variables) + 2) as u16;
    match node {
        Node::Literal(literal) if random.percent(50) => literal.on = !literal.on,
        Node::Literal(literal) => literal.variable = some_variable,
        Node::And(children) => {
            let place = random.below(children.len());
            match random.below(4) {
                0 if children.len() > 1 => drop(children.remove(place)),
                1 => children.push(children[place]),
                2 => children.push(some_child),
                _ => children[place] = some_child,
            }
        }
        Node::Fork { variable, on, off } => match random.below(4) {
            0 => std::mem::swap(on, off),
            1 => *variable = some_variable,
            2 => *on = some_child,
            _ => *off = some_child,
        },
        Node::True => *node = Node::False,
        Node::False => *node = Node::True,
    }
}

/// Weight lines of which many are refused.
pub fn spoiled_weight_text(random: &mut Random, plant: &Plant) -> Vec<u8> {
    let mut text = plant.weight_lines.join("\n").into_bytes();
    if !text.is_empty() {
        text.push(b'\n');
    }
    for _ in 0..random.between(1, 3) {
        let line = weight_line(random, plant.variables.len());
        let starts: Vec<usize> = (0..=text.len())
            .filter(|&place| place == 0 || text[place - 1] == b'\n')
            .collect();
        let start = random.one_of(&starts);
        text = with(&text, start, 0, line.as_bytes());
    }
    text
}

fn weight_line(random: &mut Random, variables: usize) -> String {
    let letter = match random.below(20) {
        0 => random.one_of(&["w", "WW", "", " W", "W ", "V"]),
        _ => "W",
    };
    let chance = match random.below(15) {
        0 => random
            .one_of(&["", "-1", "x", "01", "65536", "1 "])
            .to_string(),
        1 => random.one_of(&["0", "64", "65", "65535"]).to_string(),
        _ => random.between(1, variables).to_string(),
    };
    let [on, off] = [(); 2].map(|()| match random.below(12) {
        0 => random.one_of(WRONG_TALLIES),
        _ => random.one_of(&["0", "1", "2", "250", "4294967296", "18446744073709551615"]),
    });
    let end = match random.below(20) {
        0 => random.one_of(&["\t\n", "\t1\n", "\r\n", " \n", "\n\n", ""]),
        _ => "\n",
    };
    format!("{letter}\t{chance}\t{on}\t{off}{end}")
}

const WRONG_TALLIES: &[&str] = &[
    "",
    "-",
    "--",
    "00",
    "07",
    "+7",
    "-7",
    " 7",
    "7 ",
    "x",
    "1.5",
    "18446744073709551616",
    "18446744073709551625",
    "36893488147419103232",
    "99999999999999999999",
    "018446744073709551615",
    "100000000000000000000",
    "340282366920938463463374607431768211456",
];

/// Bytes with no sense, or little.
pub fn rubbish(random: &mut Random) -> Vec<u8> {
    let most = random.one_of(&[2, 20, 200, 2_000]);
    let length = random.below(most);
    match random.below(4) {
        0 => (0..length).map(|_| random.byte()).collect(),
        1 => (0..length).map(|_| random.one_of(TELLING_BYTES)).collect(),
        2 => (0..length)
            .map(|_| random.one_of(b"\t\n012GVLAOTFERW-"))
            .collect(),
        _ => {
            let pieces = [
                "G\t1\t1\t0\n",
                "G\t2\t3\t2\n",
                "V\t1\tE\ta\n",
                "V\t1\tR\ta\n",
                "V\t2\tR\tb\n",
                "L\t1\n",
                "L\t-1\n",
                "A\t0\n",
                "A\t0\t1\n",
                "O\t1\t0\t1\n",
                "T\n",
                "F\n",
                "W\t1\t2\t3\n",
                "W\t2\t5\t5\n",
                "\n",
                "\t",
            ];
            let text: String = (0..random.below(12))
                .map(|_| random.one_of(&pieces))
                .collect();
            text.into_bytes()
        }
    }
}
