//! Random sound circuits: ands of nodes with no variable in common, and forks
//! on a variable, shared here and there.

use reference::table_file::Node;
use reference::text::Literal;
use reference::variables::Role;

use crate::plants::Size;
use crate::random::Random;

/// The nodes of a sound circuit over variables with these roles.
pub fn random_circuit(random: &mut Random, roles: &[Role], size: Size) -> Vec<Node> {
    let all = u64::MAX >> (64 - roles.len());
    let chances = (0..roles.len())
        .filter(|&index| roles[index] == Role::Chance)
        .fold(0, |set, index| set | 1 << index);
    let habits = if size.divides_options || random.percent(40) {
        Habits::that_divide_options(random)
    } else {
        Habits::any(random)
    };
    let mut builder = Builder {
        random,
        chances,
        habits,
        nodes: Vec::new(),
        mentions: Vec::new(),
    };
    if builder.random.percent(25) {
        builder.leave_something_unused(all);
    }
    let root = builder.build(all, size.nodes);
    builder.finish(root)
}

/// How often a builder does what, in percent.
struct Habits {
    forks: usize,
    chances_first: usize,
    whole_branches: usize,
    closing_options: usize,
    sharing: usize,
    false_leaves: usize,
    dropped_options: usize,
    new_leaves: usize,
}

impl Habits {
    fn any(random: &mut Random) -> Self {
        Habits {
            forks: random.one_of(&[20, 50, 80, 95]),
            chances_first: random.one_of(&[0, 50, 95]),
            whole_branches: random.one_of(&[0, 50, 95]),
            closing_options: random.one_of(&[0, 15, 40]),
            sharing: random.one_of(&[0, 20, 50]),
            false_leaves: random.one_of(&[0, 5, 30]),
            dropped_options: random.one_of(&[0, 5, 30]),
            new_leaves: random.one_of(&[0, 0, 5, 40]),
        }
    }

    /// Each scenario wants a few options on and a few off, so that the bound
    /// is often too high, and select has much to open.
    fn that_divide_options(random: &mut Random) -> Self {
        Habits {
            forks: 100,
            chances_first: random.one_of(&[90, 100]),
            whole_branches: random.one_of(&[90, 100]),
            closing_options: random.one_of(&[10, 20, 30, 50]),
            sharing: 0,
            false_leaves: 0,
            dropped_options: 0,
            new_leaves: 0,
        }
    }
}

/// Builds nodes for sets of variables; in a set, bit 0 is variable 1.
struct Builder<'a> {
    random: &'a mut Random,
    chances: u64,
    habits: Habits,
    nodes: Vec<Node>,
    mentions: Vec<u64>,
}

impl Builder<'_> {
    /// A node that mentions every chance of the set, perhaps some of its
    /// options, and nothing else; with about so many new nodes.
    fn build(&mut self, set: u64, most: usize) -> usize {
        if let Some(node) = self.shared(set) {
            return node;
        }
        match set.count_ones() {
            0 => self.constant(),
            1 => self.single(set),
            _ if most < 4 => self.closed(set),
            _ if self.random.percent(self.habits.forks) => self.fork(set, most),
            _ => {
                let mut children = self.built_parts(set, 2, 4, most);
                if self.random.percent(5) {
                    children.push(self.constant());
                }
                self.and(children)
            }
        }
    }

    /// A node that is there already, now and then.
    fn shared(&mut self, set: u64) -> Option<usize> {
        if !self.random.percent(self.habits.sharing) {
            return None;
        }
        let fits = |&node: &usize| {
            let mentioned = self.mentions[node];
            mentioned & !set == 0 && mentioned & self.chances == set & self.chances
        };
        let fitting: Vec<usize> = (0..self.nodes.len()).filter(fits).collect();
        (!fitting.is_empty()).then(|| self.random.one_of(&fitting))
    }

    fn constant(&mut self) -> usize {
        let is_false = self.random.percent(self.habits.false_leaves);
        self.leaf(if is_false { Node::False } else { Node::True }, 0)
    }

    /// A node for one variable.
    fn single(&mut self, set: u64) -> usize {
        let is_option = set & self.chances == 0;
        match self.random.below(100) {
            0..30 => self.fork(set, 0),
            30..45 if is_option => self.constant(),
            30..60 => self.both_sides(set),
            _ => {
                let on = self.random.percent(50);
                self.literal(set, on)
            }
        }
    }

    /// A fork on a chance with its two literals, true in every world.
    fn both_sides(&mut self, set: u64) -> usize {
        let variable = variable_of(set);
        let (on, off) = (self.literal(set, true), self.literal(set, false));
        self.leaf(Node::Fork { variable, on, off }, set)
    }

    /// An and of small nodes, one for each chance and some of the options.
    fn closed(&mut self, set: u64) -> usize {
        let mut children = Vec::new();
        for single in singles(set) {
            let is_chance = single & self.chances != 0;
            if is_chance && self.random.percent(60) {
                children.push(self.both_sides(single));
            } else if is_chance || self.random.percent(self.habits.closing_options) {
                let on = self.random.percent(50);
                children.push(self.literal(single, on));
            }
        }
        match children.len() {
            0 => self.constant(),
            1 => children[0],
            _ => self.and(children),
        }
    }

    fn fork(&mut self, set: u64, most: usize) -> usize {
        let chances = set & self.chances;
        let decided = if chances != 0 && self.random.percent(self.habits.chances_first) {
            self.random_single(chances)
        } else {
            self.random_single(set)
        };
        let on = self.branch(decided, true, set & !decided, most / 2);
        let off = self.branch(decided, false, set & !decided, most / 2);
        let mentioned = self.mentions[on] | self.mentions[off];
        let variable = variable_of(decided);
        self.push(Node::Fork { variable, on, off }, mentioned)
    }

    /// A branch that has the literal, and mentions the rest.
    fn branch(&mut self, decided: u64, on: bool, rest: u64, most: usize) -> usize {
        let leaf = self.literal(decided, on);
        let rest = self.without_some_options(rest);
        let most_parts = if self.random.percent(self.habits.whole_branches) {
            1
        } else {
            3
        };
        let mut children = self.built_parts(rest, 1, most_parts, most.saturating_sub(2));
        if self.random.percent(5) {
            children.push(self.constant());
        }
        if children.is_empty() && self.random.percent(80) {
            return leaf;
        }
        children.push(leaf);
        self.random.shuffle(&mut children);
        self.and(children)
    }

    /// Nodes for disjoint parts that the set falls into; none for none.
    fn built_parts(
        &mut self,
        set: u64,
        least_parts: usize,
        most_parts: usize,
        most: usize,
    ) -> Vec<usize> {
        let mut parts = vec![0; self.random.between(least_parts, most_parts)];
        for single in singles(set) {
            let part = self.random.below(parts.len());
            parts[part] |= single;
        }
        parts.retain(|&part| part != 0);
        let share = |part: u64| most * part.count_ones() as usize / set.count_ones() as usize;
        parts
            .into_iter()
            .map(|part| self.build(part, share(part)))
            .collect()
    }

    fn without_some_options(&mut self, set: u64) -> u64 {
        singles(set)
            .filter(|single| {
                single & self.chances != 0 || !self.random.percent(self.habits.dropped_options)
            })
            .fold(0, |kept, single| kept | single)
    }

    fn random_single(&mut self, set: u64) -> u64 {
        let place = self.random.below(set.count_ones() as usize);
        singles(set).nth(place).expect("the set has so many")
    }

    fn literal(&mut self, single: u64, on: bool) -> usize {
        let variable = variable_of(single);
        self.leaf(Node::Literal(Literal { variable, on }), single)
    }

    fn and(&mut self, children: Vec<usize>) -> usize {
        let mentioned = children
            .iter()
            .fold(0, |set, &child| set | self.mentions[child]);
        self.push(Node::And(children), mentioned)
    }

    /// A small node, mostly the one that is there already.
    fn leaf(&mut self, node: Node, mentioned: u64) -> usize {
        let is_new = self.random.percent(self.habits.new_leaves);
        let place = self.nodes.iter().position(|other| *other == node);
        match place {
            Some(place) if !is_new => place,
            _ => self.push(node, mentioned),
        }
    }

    fn push(&mut self, node: Node, mentioned: u64) -> usize {
        self.nodes.push(node);
        self.mentions.push(mentioned);
        self.nodes.len() - 1
    }

    /// Nodes that the root need not reach.
    fn leave_something_unused(&mut self, all: u64) {
        for _ in 0..self.random.between(1, 4) {
            let set = all & self.random.next() & self.random.next();
            self.build(set, 10);
        }
    }

    /// The nodes with the root as the last one, mostly in another order.
    fn finish(mut self, root: usize) -> Vec<Node> {
        let is_child = self
            .nodes
            .iter()
            .any(|node| node.children().contains(&root));
        let root = if is_child { self.and(vec![root]) } else { root };
        let order = if self.random.percent(70) {
            self.shuffled_order(root)
        } else {
            let others = (0..self.nodes.len()).filter(|&node| node != root);
            others.chain([root]).collect()
        };
        let mut new_places = vec![0; self.nodes.len()];
        for (new_place, &old_place) in order.iter().enumerate() {
            new_places[old_place] = new_place;
        }
        let moved = |&old_place: &usize| moved_node(&self.nodes[old_place], &new_places);
        order.iter().map(moved).collect()
    }

    /// A random order with each node behind its children, and the root last.
    fn shuffled_order(&mut self, root: usize) -> Vec<usize> {
        let mut parents = vec![Vec::new(); self.nodes.len()];
        let mut waits_for = vec![0; self.nodes.len()];
        for (place, node) in self.nodes.iter().enumerate() {
            waits_for[place] = node.children().len();
            for child in node.children() {
                parents[child].push(place);
            }
        }
        let is_ready = |place: &usize| waits_for[*place] == 0 && *place != root;
        let mut ready: Vec<usize> = (0..self.nodes.len()).filter(is_ready).collect();
        let mut order = Vec::new();
        while !ready.is_empty() {
            let node = ready.swap_remove(self.random.below(ready.len()));
            order.push(node);
            for &parent in &parents[node] {
                waits_for[parent] -= 1;
                if waits_for[parent] == 0 && parent != root {
                    ready.push(parent);
                }
            }
        }
        order.push(root);
        order
    }
}

/// The nodes of a circuit that need not be sound: all literals of so many
/// variables, and some nodes above them.
pub fn any_circuit(random: &mut Random, variables: usize) -> Vec<Node> {
    let mut nodes = vec![Node::True, Node::False];
    for variable in 1..=variables as u16 {
        nodes.extend([true, false].map(|on| Node::Literal(Literal { variable, on })));
    }
    random.shuffle(&mut nodes);
    nodes.truncate(random.between(2, nodes.len()));
    for _ in 0..random.between(1, 8) {
        let node = any_node(random, &nodes, variables);
        nodes.push(node);
    }
    nodes
}

fn any_node(random: &mut Random, nodes: &[Node], variables: usize) -> Node {
    if random.percent(55) {
        let children = (0..random.between(1, 3)).map(|_| random.below(nodes.len()));
        return Node::And(children.collect());
    }
    let variable = random.between(1, variables) as u16;
    let [on, off] = [true, false].map(|on| {
        let literal = Node::Literal(Literal { variable, on });
        let is_the_leaf = |place: usize| nodes[place] == literal;
        let has_it = |&place: &usize| {
            is_the_leaf(place)
                || matches!(&nodes[place], Node::And(children)
                    if children.iter().any(|&child| is_the_leaf(child)))
        };
        let fitting: Vec<usize> = (0..nodes.len()).filter(has_it).collect();
        if fitting.is_empty() || random.percent(10) {
            random.below(nodes.len())
        } else {
            random.one_of(&fitting)
        }
    });
    Node::Fork { variable, on, off }
}

fn moved_node(node: &Node, new_places: &[usize]) -> Node {
    match node {
        Node::And(children) => Node::And(children.iter().map(|&child| new_places[child]).collect()),
        &Node::Fork { variable, on, off } => Node::Fork {
            variable,
            on: new_places[on],
            off: new_places[off],
        },
        other => other.clone(),
    }
}

/// The number of the one variable in a set.
fn variable_of(single: u64) -> u16 {
    single.trailing_zeros() as u16 + 1
}

/// The sets of one variable each that make up a set.
fn singles(set: u64) -> impl Iterator<Item = u64> {
    (0..64)
        .map(|bit| 1 << bit)
        .filter(move |single| set & single != 0)
}
