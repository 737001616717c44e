//! Plants, their texts, and random ones whose tables are sound.

use std::collections::HashSet;

use reference::script::Kind;
use reference::table_file::{Node, MOST_NAME_BYTES, MOST_NODES, MOST_OPTIONS, MOST_VARIABLES};
use reference::variables::{Role, Variable};

use crate::circuits::{any_circuit, random_circuit};
use crate::random::Random;

#[derive(Clone)]
pub struct Plant {
    pub variables: Vec<Variable>,
    pub nodes: Vec<Node>,
    pub weight_lines: Vec<String>,
}

impl Plant {
    /// The numbers of the variables with this role, rising.
    pub fn numbers(&self, role: Role) -> Vec<u16> {
        (1..)
            .zip(&self.variables)
            .filter(|(_, variable)| variable.role == role)
            .map(|(number, _)| number)
            .collect()
    }

    /// How many figures the pair pass writes.
    pub fn pair_places(&self) -> usize {
        self.nodes.len() * (2 * self.numbers(Role::Option).len() + 1)
    }

    /// The table file, with its weight text.
    pub fn text(&self) -> Vec<u8> {
        let children: usize = self.nodes.iter().map(|node| node.children().len()).sum();
        let mut lines = vec![format!(
            "G\t{}\t{}\t{children}",
            self.variables.len(),
            self.nodes.len()
        )];
        for (index, variable) in self.variables.iter().enumerate() {
            let role = match variable.role {
                Role::Option => 'E',
                Role::Chance => 'R',
            };
            lines.push(format!("V\t{}\t{role}\t{}", index + 1, variable.name));
        }
        lines.extend(self.nodes.iter().map(node_line));
        lines.extend(self.weight_lines.iter().cloned());
        (lines.join("\n") + "\n").into_bytes()
    }
}

fn node_line(node: &Node) -> String {
    match node {
        Node::Literal(literal) if literal.on => format!("L\t{}", literal.variable),
        Node::Literal(literal) => format!("L\t-{}", literal.variable),
        Node::And(children) => {
            let fields: Vec<String> = children.iter().map(usize::to_string).collect();
            format!("A\t{}", fields.join("\t"))
        }
        Node::Fork { variable, on, off } => format!("O\t{variable}\t{on}\t{off}"),
        Node::True => String::from("T"),
        Node::False => String::from("F"),
    }
}

/// How large a random plant is to be.
#[derive(Clone, Copy)]
pub struct Size {
    pub options: usize,
    pub chances: usize,
    /// About the most nodes that it has.
    pub nodes: usize,
    /// Whether select is to have much to open.
    pub divides_options: bool,
}

impl Size {
    pub fn tiny(random: &mut Random) -> Self {
        Size::up_to(random, 2, 2, 12)
    }

    pub fn small(random: &mut Random) -> Self {
        Size::up_to(random, 4, 6, 60)
    }

    fn up_to(random: &mut Random, options: usize, chances: usize, nodes: usize) -> Self {
        let options = random.between(0, options);
        let chances = random.between(usize::from(options == 0), chances);
        let nodes = random.between(1, nodes);
        Size {
            options,
            chances,
            nodes,
            divides_options: false,
        }
    }

    /// Options between which the scenarios divide, for a work table of so many
    /// figures.
    pub fn divided(random: &mut Random, work_figures: usize) -> Self {
        let options = random.between(3, 14);
        let most_nodes = (work_figures / (2 * options + 1)).min(1_000);
        Size {
            options,
            chances: random.between(3, 9),
            nodes: random.between(most_nodes / 2, most_nodes),
            divides_options: true,
        }
    }

    /// From tiny to large, for a work table of so many figures.
    pub fn any(random: &mut Random, work_figures: usize) -> Self {
        match random.below(100) {
            0..25 => Size::tiny(random),
            25..60 => Size::small(random),
            60..85 => Size::up_to(random, 10, 20, 1).filling(random, work_figures),
            _ => Size::large(random, work_figures),
        }
    }

    /// With up to all variables that a table may have, for a work table of so
    /// many figures.
    pub fn large(random: &mut Random, work_figures: usize) -> Self {
        Size::up_to(random, MOST_OPTIONS, MOST_VARIABLES - MOST_OPTIONS, 1)
            .filling(random, work_figures)
    }

    /// With nodes that mostly fit into a work table of so many figures.
    fn filling(self, random: &mut Random, work_figures: usize) -> Self {
        let room = work_figures / (2 * self.options + 1);
        let most = if random.percent(85) { room } else { 2 * room };
        Size {
            nodes: random.between(1, most.min(MOST_NODES)),
            ..self
        }
    }
}

/// A plant whose table is sound, with weights of this kind.
pub fn random_plant(random: &mut Random, size: Size, kind: Kind) -> Plant {
    let mut roles = vec![Role::Option; size.options];
    roles.resize(size.options + size.chances, Role::Chance);
    random.shuffle(&mut roles);
    let mut plant = Plant {
        variables: random_variables(random, &roles),
        nodes: random_circuit(random, &roles, size),
        weight_lines: Vec::new(),
    };
    plant.weight_lines = random_weight_lines(random, &plant, kind);
    plant
}

/// A small plant whose circuit is seldom sound.
pub fn any_plant(random: &mut Random) -> Plant {
    let count = random.between(1, 4);
    let roles: Vec<Role> = (0..count)
        .map(|_| random.one_of(&[Role::Option, Role::Chance]))
        .collect();
    let mut plant = Plant {
        variables: random_variables(random, &roles),
        nodes: any_circuit(random, count),
        weight_lines: Vec::new(),
    };
    plant.weight_lines = random_weight_lines(random, &plant, Kind::Tally);
    plant
}

fn random_variables(random: &mut Random, roles: &[Role]) -> Vec<Variable> {
    let mut names = HashSet::new();
    let mut variables = Vec::new();
    for &role in roles {
        let name = loop {
            let name = random_name(random);
            if names.insert(name.clone()) {
                break name;
            }
        };
        variables.push(Variable { role, name });
    }
    variables
}

fn random_name(random: &mut Random) -> String {
    if random.percent(70) {
        let word = random.one_of(&[
            "fan",
            "hot day",
            "chiller",
            "E",
            "spare pump",
            "W",
            "damper",
        ]);
        return format!("{word} {}", random.below(1_000));
    }
    let length = random.between(1, MOST_NAME_BYTES);
    (0..length)
        .map(|_| char::from(random.between(32, 126) as u8))
        .collect()
}

/// What the weights of a plant are like.
#[derive(Clone, Copy)]
pub enum Weights {
    /// At most so much, from zero on.
    UpTo(u64),
    OftenZero,
    NearCap,
}

impl Weights {
    pub fn any(random: &mut Random, kind: Kind, plant: &Plant) -> Self {
        let chances = plant.numbers(Role::Chance).len().max(1) as u32;
        // The most with which no scenario, and hardly any sum, comes to the cap.
        let fitting = match kind {
            Kind::Tally => 1 << (58 / chances).max(1),
            Kind::Peak => u64::from(u32::MAX / chances),
        };
        match random.below(10) {
            0..5 => Weights::UpTo(fitting),
            5 => Weights::UpTo(9),
            6 | 7 => Weights::UpTo(5_000),
            8 => Weights::OftenZero,
            _ => Weights::NearCap,
        }
    }
}

/// A figure in its text form.
pub fn random_figure(random: &mut Random, kind: Kind, weights: Weights) -> String {
    let cap = match kind {
        Kind::Tally => u64::MAX,
        Kind::Peak => u64::from(u32::MAX),
    };
    if kind == Kind::Peak && random.percent(8) {
        return zero_text(kind);
    }
    let figure = match weights {
        Weights::UpTo(most) => random.next() % (most + 1),
        Weights::OftenZero if random.percent(50) => return zero_text(kind),
        Weights::OftenZero => random.between(1, 20) as u64,
        Weights::NearCap => match random.below(4) {
            0 => cap,
            1 => cap - random.below(10) as u64,
            2 => (cap >> random.below(32)) - random.below(2) as u64,
            _ => random.between(0, 3) as u64,
        },
    };
    figure.to_string()
}

fn zero_text(kind: Kind) -> String {
    String::from(match kind {
        Kind::Tally => "0",
        Kind::Peak => "-",
    })
}

fn random_weight_lines(random: &mut Random, plant: &Plant, kind: Kind) -> Vec<String> {
    let weights = Weights::any(random, kind, plant);
    let mut chances = plant.numbers(Role::Chance);
    if random.percent(50) {
        random.shuffle(&mut chances);
    }
    let left_out = random.one_of(&[0, 0, 10, 60]);
    let mut lines = Vec::new();
    for chance in chances {
        if random.percent(left_out) {
            continue;
        }
        for _ in 0..if random.percent(5) { 2 } else { 1 } {
            let on = random_figure(random, kind, weights);
            let off = random_figure(random, kind, weights);
            lines.push(format!("W\t{chance}\t{on}\t{off}"));
        }
    }
    lines
}
