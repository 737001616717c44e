//! The check of a circuit, and the table that has passed it.

use crate::fault::{Fault, Refusal};
use crate::table_file::{Node, TableFile};
use crate::text::Literal;
use crate::variables::{Role, Variable, VariableSet};

/// A table whose circuit is sound.
#[derive(Clone, Debug)]
pub struct Table {
    variables: Vec<Variable>,
    nodes: Vec<Node>,
    mentions: Vec<VariableSet>,
    options: Vec<u16>,
}

impl Table {
    pub fn variables(&self) -> &[Variable] {
        &self.variables
    }

    pub fn nodes(&self) -> &[Node] {
        &self.nodes
    }

    pub fn root(&self) -> usize {
        self.nodes.len() - 1
    }

    /// The variables that a node mentions.
    pub fn mentions(&self, node: usize) -> VariableSet {
        self.mentions[node]
    }

    /// The options' numbers, rising.
    pub fn options(&self) -> &[u16] {
        &self.options
    }

    /// The role of the variable with this number, if there is one.
    pub fn role(&self, number: u16) -> Option<Role> {
        let index = usize::from(number).checked_sub(1)?;
        self.variables.get(index).map(|variable| variable.role)
    }

    pub fn is_option(&self, number: u16) -> bool {
        self.role(number) == Some(Role::Option)
    }

    pub fn is_chance(&self, number: u16) -> bool {
        self.role(number) == Some(Role::Chance)
    }

    pub fn name(&self, number: u16) -> &str {
        &self.variables[usize::from(number) - 1].name
    }
}

pub fn check(file: TableFile) -> Result<Table, Fault> {
    let circuit = Circuit {
        chances: numbers_of(&file.variables, Role::Chance).collect(),
        variables: file.variables.len(),
        nodes: &file.nodes,
    };
    let mut mentions = Vec::new();
    for place in 0..file.nodes.len() {
        let mentioned = circuit
            .mentioned(place, &mentions)
            .map_err(|refusal| refusal.at(place))?;
        mentions.push(mentioned);
    }
    let root = file.nodes.len() - 1;
    if mentions[root].intersection(circuit.chances) != circuit.chances {
        return Err(Refusal::RootLacksChance.at(root));
    }
    let options = numbers_of(&file.variables, Role::Option).collect();
    Ok(Table {
        variables: file.variables,
        nodes: file.nodes,
        mentions,
        options,
    })
}

fn numbers_of(variables: &[Variable], role: Role) -> impl Iterator<Item = u16> + '_ {
    (1..)
        .zip(variables)
        .filter(move |(_, variable)| variable.role == role)
        .map(|(number, _)| number)
}

struct Circuit<'a> {
    variables: usize,
    chances: VariableSet,
    nodes: &'a [Node],
}

impl Circuit<'_> {
    /// What the node at this place mentions, from what those before it do, or
    /// the first refusal that fits it.
    fn mentioned(&self, place: usize, before: &[VariableSet]) -> Result<VariableSet, Refusal> {
        let node = &self.nodes[place];
        if node.children().iter().any(|&child| child >= place) {
            return Err(Refusal::ChildNotBelow);
        }
        match node {
            Node::Literal(literal) => {
                self.known(literal.variable)?;
                Ok(VariableSet::of(literal.variable))
            }
            Node::And(children) => {
                let mut mentioned = VariableSet::default();
                for &child in children {
                    if mentioned.intersects(before[child]) {
                        return Err(Refusal::SharedVariable);
                    }
                    mentioned = mentioned.union(before[child]);
                }
                Ok(mentioned)
            }
            &Node::Fork { variable, on, off } => {
                self.known(variable)?;
                let has = |branch: usize, on: bool| self.has(branch, Literal { variable, on });
                if !has(on, true) || !has(off, false) {
                    return Err(Refusal::NoDecision);
                }
                let chances_of = |branch: usize| before[branch].intersection(self.chances);
                if chances_of(on) != chances_of(off) {
                    return Err(Refusal::UnevenFork);
                }
                Ok(before[on].union(before[off]))
            }
            Node::True | Node::False => Ok(VariableSet::default()),
        }
    }

    fn known(&self, variable: u16) -> Result<(), Refusal> {
        if (1..=self.variables).contains(&usize::from(variable)) {
            Ok(())
        } else {
            Err(Refusal::UnknownVariable)
        }
    }

    /// Whether a branch is this leaf, or an and with it among its children.
    fn has(&self, branch: usize, literal: Literal) -> bool {
        let is_the_leaf = |place: usize| self.nodes[place] == Node::Literal(literal);
        match &self.nodes[branch] {
            Node::And(children) => children.iter().any(|&child| is_the_leaf(child)),
            _ => is_the_leaf(branch),
        }
    }
}
