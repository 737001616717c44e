#!/usr/bin/env python3
"""Checks a plant: a table file with its weight text.

    python3 check_plant.py hall.txt [NODE_STORE CHILD_STORE]

Prints either `X`, the number of the first refusal that fits and its place, or what the plant is made of and the
selections with the highest figure. All of it is done in the plainest way, from the rules alone: the figure of a
selection is found by trying every scenario. So it is slow, and a second opinion on the quick ways.

The two lengths of the caller's stores matter for refusal 5 only; they are 4096 and 12288 where none are given.
"""

import sys
from itertools import product

LONGEST_FILE = 65536
MOST_VARIABLES, MOST_OPTIONS = 64, 20
MOST_NODES, MOST_CHILDREN = 4096, 12288
LONGEST_NAME = 24
LARGEST_NUMBER = 65535
TALLY_CAP = 18446744073709551615  # a tally that would be larger is this

# More pairs of a selection and a scenario than this are not tried.
MOST_WORLDS = 1 << 20


class Refusal(Exception):
    def __init__(self, number, place):
        super().__init__(number, place)
        self.number, self.place = number, place


class Node:
    """A node: its letter, the variable of a literal or fork, the side of a literal, the children's numbers."""

    def __init__(self, letter, variable=None, on=None, children=()):
        self.letter, self.variable, self.on, self.children = letter, variable, on, list(children)


class Plant:
    def __init__(self):
        self.names, self.is_option = {}, {}  # by the variable's number
        self.nodes = []
        self.weights = {}  # on and off weight, by the chance's number

    def options(self):
        return [v for v in self.names if self.is_option[v]]

    def chances(self):
        return [v for v in self.names if not self.is_option[v]]


# Numbers. Each refuses with 3 at the line.

def numeral(field, digits, largest, line):
    well_formed = field.isdigit() and field.isascii() and len(field) <= digits and (field == "0" or field[0] != "0")
    if not well_formed or int(field) > largest:
        raise Refusal(3, line)
    return int(field)


def number(field, line):
    return numeral(field, 5, LARGEST_NUMBER, line)


def tally(field, line):
    return numeral(field, 20, TALLY_CAP, line)


# Lines.

class Lines:
    """The lines of a text, one by one, counted from 1."""

    def __init__(self, text):
        self.text, self.at, self.line = text, 0, 0

    def next(self, due):
        """The fields of the next line, which has to begin with one of the letters that are due."""
        self.line += 1
        end = self.text.find(b"\n", self.at)
        if end < 0:
            raise Refusal(2, self.line)  # missing, or without its byte 10
        line = self.text[self.at:end]
        self.at = end + 1
        if any(not (b == 9 or 32 <= b <= 126) for b in line):
            raise Refusal(2, self.line)
        fields = line.decode("ascii").split("\t")
        if fields[0] not in due:
            raise Refusal(2, self.line)
        return fields

    def want(self, fields, count):
        if len(fields) != count:
            raise Refusal(2, self.line)


# The table file: refusals 1 to 7.

def read_header(lines, node_store, child_store):
    fields = lines.next({"G"})
    lines.want(fields, 4)
    variables, nodes, children = [number(f, lines.line) for f in fields[1:]]
    if not (1 <= variables <= MOST_VARIABLES and 1 <= nodes <= MOST_NODES and children <= MOST_CHILDREN):
        raise Refusal(4, lines.line)
    if node_store < nodes or child_store < children:
        raise Refusal(5, lines.line)
    return variables, nodes, children


def read_variable(lines, plant):
    fields = lines.next({"V"})
    lines.want(fields, 4)
    own_number = number(fields[1], lines.line)
    role, name = fields[2], fields[3]
    fits = (
        own_number == len(plant.names) + 1
        and role in ("E", "R")
        and 1 <= len(name) <= LONGEST_NAME
        and name not in plant.names.values()
    )
    if not fits or (role == "E" and len(plant.options()) == MOST_OPTIONS):
        raise Refusal(6, lines.line)
    plant.names[own_number], plant.is_option[own_number] = name, role == "E"


def read_node(lines):
    fields = lines.next({"L", "A", "O", "T", "F"})
    letter = fields[0]
    if letter == "L":
        lines.want(fields, 2)
        off = fields[1].startswith("-")
        return Node("L", variable=number(fields[1][1:] if off else fields[1], lines.line), on=not off)
    if letter == "A":
        if len(fields) < 2:
            raise Refusal(2, lines.line)
        return Node("A", children=[number(f, lines.line) for f in fields[1:]])
    if letter == "O":
        lines.want(fields, 4)
        variable, on_branch, off_branch = [number(f, lines.line) for f in fields[1:]]
        return Node("O", variable=variable, children=[on_branch, off_branch])
    lines.want(fields, 1)
    return Node(letter)


def read_table(text, node_store, child_store):
    """The plant, and the byte place where the weight text begins."""
    if not 1 <= len(text) <= LONGEST_FILE:
        raise Refusal(1, 0)
    lines, plant = Lines(text), Plant()
    variables, nodes, children = read_header(lines, node_store, child_store)
    for _ in range(variables):
        read_variable(lines, plant)
    so_far = 0
    for place in range(nodes):
        node = read_node(lines)
        so_far += len(node.children)
        if so_far > children or (place == nodes - 1 and so_far < children):
            raise Refusal(7, lines.line)
        plant.nodes.append(node)
    return plant, lines.at


# The checked table: refusals 8 to 13, node by node, the lowest number first within a node.

def has(nodes, branch, variable, on):
    """Whether a branch is the literal, or an `A` with the literal among its own children."""
    candidates = [branch] + (nodes[branch].children if nodes[branch].letter == "A" else [])
    return any(
        nodes[c].letter == "L" and nodes[c].variable == variable and nodes[c].on == on for c in candidates
    )


def check_table(plant):
    """For each node the variables that it mentions."""
    nodes, chances = plant.nodes, set(plant.chances())
    mentions = []
    for place, node in enumerate(nodes):
        if any(c >= place for c in node.children):
            raise Refusal(8, place)
        if node.variable is not None and node.variable not in plant.names:
            raise Refusal(9, place)
        seen = set()
        for c in node.children:
            if node.letter == "A" and seen & mentions[c]:
                raise Refusal(10, place)
            seen |= mentions[c]
        if node.letter == "O":
            on_branch, off_branch = node.children
            if not has(nodes, on_branch, node.variable, True) or not has(nodes, off_branch, node.variable, False):
                raise Refusal(11, place)
            if mentions[on_branch] & chances != mentions[off_branch] & chances:
                raise Refusal(12, place)
        mentions.append({node.variable} if node.letter == "L" else seen)
        if place == len(nodes) - 1 and not chances <= mentions[place]:
            raise Refusal(13, place)
    return mentions


# The weight text. Its lines are counted from 1 again; a chance without a line has the weights 1 and 1.

def read_weights(text, plant):
    plant.weights = {chance: (1, 1) for chance in plant.chances()}
    lines = Lines(text)
    while lines.at < len(text):
        fields = lines.next({"W"})
        lines.want(fields, 4)
        variable = number(fields[1], lines.line)
        on, off = tally(fields[2], lines.line), tally(fields[3], lines.line)
        if variable not in plant.weights:
            raise Refusal(17, lines.line)
        plant.weights[variable] = (on, off)


# Figures, by brute force.

def root_is_true(plant, on):
    """Whether the root is true where `on` says of each variable whether it is on."""
    values = []
    for node in plant.nodes:
        if node.letter == "L":
            values.append(on[node.variable] == node.on)
        elif node.letter == "A":
            values.append(all(values[c] for c in node.children))
        elif node.letter == "O":
            values.append(any(values[c] for c in node.children))
        else:
            values.append(node.letter == "T")
    return values[-1]


def settings(variables):
    """Every way to set the variables, the one with all on first."""
    for sides in product([True, False], repeat=len(variables)):
        yield dict(zip(variables, sides))


def figure(plant, selection):
    """The weighted model count: over the scenarios that make the root true, the sum of the products of weights."""
    total = 0
    for scenario in settings(plant.chances()):
        if root_is_true(plant, {**selection, **scenario}):
            weight = 1
            for chance, on in scenario.items():
                weight = min(TALLY_CAP, weight * plant.weights[chance][0 if on else 1])
            total = min(TALLY_CAP, total + weight)
    return total


def names_on(plant, selection):
    return ", ".join(plant.names[v] for v in plant.options() if selection[v]) or "nothing"


# The report.

def report(plant, mentions, weights_begin):
    nodes = plant.nodes
    print("variables", len(plant.names), sep="\t")
    print("options", len(plant.options()), sep="\t")
    print("chances", len(plant.chances()), sep="\t")
    print("nodes", len(nodes), sep="\t")
    print("children", sum(len(n.children) for n in nodes), sep="\t")
    for letter, words in zip("LAOTF", ["literals", "ands", "forks", "true", "false"]):
        print(words, sum(n.letter == letter for n in nodes), sep="\t")
    print("weights begin", weights_begin, sep="\t")
    print("root mentions", len(mentions[-1]), sep="\t")
    if 1 << len(plant.names) > MOST_WORLDS:
        print("too many selections and scenarios to try each")
        return
    ranked = [(figure(plant, selection), selection) for selection in settings(plant.options())]
    most = max(value for value, _ in ranked)
    print("selections", len(ranked), sep="\t")
    print("above zero", sum(value > 0 for value, _ in ranked), sep="\t")
    print("different figures", len({value for value, _ in ranked}), sep="\t")
    print("highest figure", most, sep="\t")
    ranked.sort(key=lambda pair: -pair[0])
    for value, selection in [r for r in ranked if r[0] > 0][:8]:
        print("best" if value == most else "then", value, names_on(plant, selection), sep="\t")


def main():
    if len(sys.argv) not in (2, 4):
        sys.exit(__doc__)
    path, *stores = sys.argv[1:]
    node_store, child_store = [int(s) for s in stores] or [MOST_NODES, MOST_CHILDREN]
    with open(path, "rb") as file:
        text = file.read(LONGEST_FILE + 1)
    try:
        plant, weights_begin = read_table(text, node_store, child_store)
        mentions = check_table(plant)
        read_weights(text[weights_begin:], plant)
    except Refusal as refusal:
        print("X", refusal.number, refusal.place, sep="\t")
        return
    report(plant, mentions, weights_begin)


if __name__ == "__main__":
    main()
