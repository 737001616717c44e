//! Files at the limits of what a table file may have, and over them.

use reference::table_file::{Node, MOST_BYTES};
use reference::text::Literal;
use reference::variables::{Role, Variable};

use crate::plants::Plant;

/// The figures of the work table that the program `quote` has.
const WORK_FIGURES: usize = 4_096;

pub fn limit_files() -> Vec<Vec<u8>> {
    let mut files = vec![Vec::new()];
    files.extend((0..=u8::MAX).map(|byte| vec![byte]));
    files.extend(headers());
    files.extend(many_variables());
    files.extend(names());
    files.extend(many_nodes());
    files.extend(many_children());
    files.extend(long_files());
    files.extend(extreme_weights());
    files.extend(small_circuits());
    files
}

fn variables(options: usize, chances: usize) -> Vec<Variable> {
    let mut roles = vec![Role::Option; options];
    roles.resize(options + chances, Role::Chance);
    let named = |(index, role)| Variable {
        role,
        name: format!("variable {}", index + 1),
    };
    roles.into_iter().enumerate().map(named).collect()
}

fn literal(variable: u16, on: bool) -> Node {
    Node::Literal(Literal { variable, on })
}

/// A fork on a variable with its two literals, from this place on.
fn both_sides(variable: u16, place: usize) -> [Node; 3] {
    let (on, off) = (place, place + 1);
    [
        literal(variable, true),
        literal(variable, false),
        Node::Fork { variable, on, off },
    ]
}

/// Every variable is on or off, and each option matters: on is never worse.
fn open_plant(options: usize, chances: usize) -> Plant {
    let mut nodes = Vec::new();
    let mut children = Vec::new();
    for variable in 1..=(options + chances) as u16 {
        if usize::from(variable) <= options {
            nodes.push(literal(variable, true));
        } else {
            nodes.extend(both_sides(variable, nodes.len()));
        }
        children.push(nodes.len() - 1);
    }
    nodes.push(Node::And(children));
    Plant {
        variables: variables(options, chances),
        nodes,
        weight_lines: Vec::new(),
    }
}

fn headers() -> Vec<Vec<u8>> {
    let counts = [
        "0", "1", "2", "20", "21", "63", "64", "65", "4095", "4096", "4097", "12287", "12288",
        "12289", "65535", "65536", "99999", "100000",
    ];
    let mut files = Vec::new();
    for place in 0..3 {
        for count in counts {
            let mut fields = ["1", "1", "0"];
            fields[place] = count;
            let header = format!("G\t{}\n", fields.join("\t"));
            files.push(format!("{header}V\t1\tE\ta\nT\n").into_bytes());
            files.push(header.into_bytes());
        }
    }
    files
}

fn many_variables() -> Vec<Vec<u8>> {
    let counts = [
        (0, 1),
        (1, 0),
        (0, 63),
        (0, 64),
        (0, 65),
        (19, 1),
        (20, 0),
        (20, 1),
        (20, 44),
        (20, 45),
        (21, 0),
        (21, 1),
        (21, 43),
    ];
    let plant = |(options, chances)| open_plant(options, chances).text();
    counts.map(plant).to_vec()
}

fn names() -> Vec<Vec<u8>> {
    let long = "a name of 24 bytes, just.";
    let mut names: Vec<String> = [0, 1, 2, 23, 24, 25]
        .map(|length| String::from(&long[..length]))
        .to_vec();
    names.extend([" ", "  ", "E", "variable 2", "Variable 2", "variable 2 "].map(String::from));
    names.extend((0..128).map(|byte| format!("a{}b", char::from(byte))));
    let named = |name: String| {
        let mut plant = open_plant(1, 1);
        plant.variables[0].name = name;
        plant.text()
    };
    let mut files: Vec<Vec<u8>> = names.into_iter().map(named).collect();
    for (first, second) in (0..5).flat_map(|first| (0..5).map(move |second| (first, second))) {
        let mut plant = open_plant(2, 3);
        plant.variables[first].name = plant.variables[second].name.clone();
        files.push(plant.text());
    }
    files
}

/// Plants of which the pair pass just fits into the work table, or just not.
fn many_nodes() -> Vec<Vec<u8>> {
    let mut files = Vec::new();
    for options in 0..=20 {
        let fitting = WORK_FIGURES / (2 * options + 1);
        for count in [fitting, fitting + 1] {
            files.push(with_nodes(options, count));
        }
    }
    files.push(with_nodes(1, 4_096));
    files.push(with_nodes(20, 4_096));
    files
}

/// The open plant with true leaves before its nodes, so many in all.
fn with_nodes(options: usize, count: usize) -> Vec<u8> {
    let mut plant = open_plant(options, usize::from(options == 0));
    let added = count.saturating_sub(plant.nodes.len());
    for node in &mut plant.nodes {
        match node {
            Node::And(children) => children.iter_mut().for_each(|child| *child += added),
            Node::Fork { on, off, .. } => {
                *on += added;
                *off += added;
            }
            Node::Literal(_) | Node::True | Node::False => {}
        }
    }
    plant.nodes.splice(0..0, vec![Node::True; added]);
    plant.text()
}

fn many_children() -> Vec<Vec<u8>> {
    let mut files = Vec::new();
    for count in [1, 2, 12_287, 12_288, 12_289] {
        let one_and = vec![Node::True, Node::And(vec![0; count])];
        let half = count / 2;
        let two_ands = vec![
            Node::True,
            Node::And(vec![0; half.max(1)]),
            Node::And(vec![0; count - half]),
        ];
        for nodes in [one_and, two_ands] {
            let plant = Plant {
                variables: variables(1, 0),
                nodes,
                weight_lines: Vec::new(),
            };
            files.push(plant.text());
        }
    }
    files
}

/// Files of so many bytes, filled up with weight lines or with anything.
fn long_files() -> Vec<Vec<u8>> {
    let mut files = Vec::new();
    for length in [
        MOST_BYTES - 1,
        MOST_BYTES,
        MOST_BYTES + 1,
        MOST_BYTES + 2,
        200_000,
        1_000_000,
    ] {
        let mut text = open_plant(1, 1).text();
        while text.len() + 20 < length {
            text.extend(b"W\t2\t3\t7\n");
        }
        let digits = length - text.len() - b"W\t2\t0\t\n".len();
        let mut closed = text.clone();
        closed.extend(format!("W\t2\t0\t{}\n", "1".repeat(digits)).bytes());
        let mut open = text.clone();
        open.extend(format!("W\t2\t0\t{}", "1".repeat(digits + 1)).bytes());
        files.extend([closed, open]);
        files.push(vec![b'\n'; length]);
        files.push(vec![b'G'; length]);
        files.push(vec![0; length]);
    }
    files
}

fn extreme_weights() -> Vec<Vec<u8>> {
    let weights = [
        "0",
        "1",
        "2",
        "3",
        "4294967295",
        "4294967296",
        "9223372036854775807",
        "9223372036854775808",
        "18446744073709551614",
        "18446744073709551615",
        "18446744073709551616",
        "-",
    ];
    let mut files = Vec::new();
    for on in weights {
        for off in weights {
            let mut plant = open_plant(1, 2);
            plant.weight_lines = vec![format!("W\t2\t{on}\t{off}"), format!("W\t3\t{off}\t{on}")];
            files.push(plant.text());
        }
    }
    files
}

/// All circuits of one and two nodes over an option and a chance, and more.
fn small_circuits() -> Vec<Vec<u8>> {
    let nodes = [
        "T",
        "F",
        "L\t1",
        "L\t-1",
        "L\t2",
        "L\t-2",
        "L\t0",
        "L\t-0",
        "L\t3",
        "L\t65",
        "L\t-65535",
        "A\t0",
        "A\t0\t0",
        "A\t1",
        "A\t0\t1",
        "A\t2",
        "A\t65535",
        "O\t1\t0\t1",
        "O\t1\t1\t0",
        "O\t2\t0\t1",
        "O\t2\t0\t0",
        "O\t0\t0\t0",
        "O\t3\t0\t0",
        "O\t0\t0\t1",
        "O\t0\t0\t2",
        "O\t65535\t0\t0",
    ];
    let mut circuits: Vec<Vec<&str>> = nodes.map(|node| vec![node]).to_vec();
    for first in nodes {
        circuits.extend(nodes.map(|second| vec![first, second]));
    }
    circuits
        .into_iter()
        .map(|nodes| circuit_file(&nodes))
        .collect()
}

fn circuit_file(nodes: &[&str]) -> Vec<u8> {
    let children_of = |node: &&str| match node.as_bytes()[0] {
        b'A' => node.matches('\t').count(),
        b'O' => 2,
        _ => 0,
    };
    let children: usize = nodes.iter().map(children_of).sum();
    let lines = nodes.join("\n");
    let count = nodes.len();
    format!("G\t2\t{count}\t{children}\nV\t1\tE\ta\nV\t2\tR\tb\n{lines}\nW\t2\t3\t7\n").into_bytes()
}
