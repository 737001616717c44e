//! The table file's reader.

use crate::fault::{Fault, Refusal};
use crate::text::{literal, number, Line, Lines, Literal};
use crate::variables::{Role, Variable};

pub const MOST_BYTES: usize = 65_536;
pub const MOST_VARIABLES: usize = 64;
pub const MOST_OPTIONS: usize = 20;
pub const MOST_NODES: usize = 4_096;
pub const MOST_CHILDREN: usize = 12_288;
pub const MOST_NAME_BYTES: usize = 24;

/// How many nodes and children the caller's stores can hold.
#[derive(Clone, Copy, Debug)]
pub struct Room {
    pub nodes: usize,
    pub children: usize,
}

impl Room {
    /// Stores in which every table file has room.
    pub const FULL: Room = Room {
        nodes: MOST_NODES,
        children: MOST_CHILDREN,
    };
}

#[derive(Clone, Debug, PartialEq, Eq)]
pub enum Node {
    Literal(Literal),
    And(Vec<usize>),
    Fork {
        variable: u16,
        on: usize,
        off: usize,
    },
    True,
    False,
}

impl Node {
    pub fn children(&self) -> Vec<usize> {
        match self {
            Node::And(children) => children.clone(),
            Node::Fork { on, off, .. } => vec![*on, *off],
            Node::Literal(_) | Node::True | Node::False => Vec::new(),
        }
    }
}

/// What a table file says. Whether its circuit is sound is for the check.
#[derive(Clone, Debug)]
pub struct TableFile {
    pub variables: Vec<Variable>,
    pub nodes: Vec<Node>,
    /// Where the weight text begins, in bytes from the start of the file.
    pub weights_begin: usize,
}

struct Header {
    variables: usize,
    nodes: usize,
    children: usize,
}

pub fn read_table_file(bytes: &[u8], room: Room) -> Result<TableFile, Fault> {
    if bytes.is_empty() || bytes.len() > MOST_BYTES {
        return Err(Refusal::FileLength.at(0));
    }
    let mut lines = Lines::new(bytes);
    let header = read_header(&lines.next_line()?, room)?;
    let mut variables = Vec::new();
    while variables.len() < header.variables {
        let variable = read_variable(&lines.next_line()?, &variables)?;
        variables.push(variable);
    }
    let mut nodes = Vec::new();
    let mut children = 0;
    while nodes.len() < header.nodes {
        let line = lines.next_line()?;
        let node = read_node(&line)?;
        nodes.push(node.0);
        children += node.1;
        let falls_short = nodes.len() == header.nodes && children < header.children;
        if children > header.children || falls_short {
            return Err(line.refused(Refusal::ChildrenCount));
        }
    }
    Ok(TableFile {
        variables,
        nodes,
        weights_begin: lines.place(),
    })
}

fn read_header(line: &Line, room: Room) -> Result<Header, Fault> {
    let fields = line
        .fields_behind(b"G", 3)
        .ok_or(line.refused(Refusal::LineForm))?;
    let mut counts = [0; 3];
    for (count, field) in counts.iter_mut().zip(fields) {
        *count = usize::from(number(field).ok_or(line.refused(Refusal::NumberForm))?);
    }
    let [variables, nodes, children] = counts;
    let within_limits = (1..=MOST_VARIABLES).contains(&variables)
        && (1..=MOST_NODES).contains(&nodes)
        && children <= MOST_CHILDREN;
    if !within_limits {
        return Err(line.refused(Refusal::CountLimit));
    }
    if nodes > room.nodes || children > room.children {
        return Err(line.refused(Refusal::ShortStore));
    }
    Ok(Header {
        variables,
        nodes,
        children,
    })
}

fn read_variable(line: &Line, earlier: &[Variable]) -> Result<Variable, Fault> {
    let fields = line
        .fields_behind(b"V", 3)
        .ok_or(line.refused(Refusal::LineForm))?;
    let own_number = number(fields[0]).ok_or(line.refused(Refusal::NumberForm))?;
    let refused = line.refused(Refusal::VariableRule);
    let role = match fields[1] {
        b"E" => Role::Option,
        b"R" => Role::Chance,
        _ => return Err(refused),
    };
    let name = String::from_utf8_lossy(fields[2]).into_owned();
    let options_before = earlier
        .iter()
        .filter(|variable| variable.role == Role::Option)
        .count();
    let breaks_a_rule = usize::from(own_number) != earlier.len() + 1
        || !(1..=MOST_NAME_BYTES).contains(&name.len())
        || earlier.iter().any(|variable| variable.name == name)
        || (role == Role::Option && options_before == MOST_OPTIONS);
    if breaks_a_rule {
        return Err(refused);
    }
    Ok(Variable { role, name })
}

/// A node, and how many children its line names.
fn read_node(line: &Line) -> Result<(Node, usize), Fault> {
    let child = |field: &[u8]| {
        number(field)
            .map(usize::from)
            .ok_or(line.refused(Refusal::NumberForm))
    };
    match (line.fields[0], &line.fields[1..]) {
        (b"L", [field]) => literal(field)
            .map(|literal| (Node::Literal(literal), 0))
            .ok_or(line.refused(Refusal::NumberForm)),
        (b"A", fields) if !fields.is_empty() => {
            let children = fields
                .iter()
                .map(|field| child(field))
                .collect::<Result<Vec<usize>, Fault>>()?;
            let count = children.len();
            Ok((Node::And(children), count))
        }
        (b"O", [variable, on, off]) => {
            let variable = number(variable).ok_or(line.refused(Refusal::NumberForm))?;
            let (on, off) = (child(on)?, child(off)?);
            Ok((Node::Fork { variable, on, off }, 2))
        }
        (b"T", []) => Ok((Node::True, 0)),
        (b"F", []) => Ok((Node::False, 0)),
        _ => Err(line.refused(Refusal::LineForm)),
    }
}
