#!/usr/bin/env python3
"""Makes hall.txt, the cooling plant of a data hall, from a readable set of rules.

    python3 make_hall.py > hall.txt

The rules stand in the function `serves`: does the plant keep the hall cool, for one way of fitting it out (the
options) and one state of the site (the chances)? The rest of the script compiles them into a circuit in
deterministic, decomposable negation normal form (d-DNNF) and prints it as a table file with its weight text.

The compiling is that of a decision diagram. The truth table of `serves` is cut in half at one variable after the
other, in the order `ORDER`; equal halves become one node. So every decision node has the form

    O v (A (L v) on-part ..) (A (L -v) off-part ..)

and its parts mention only variables that come later in the order, which makes every `A` decomposable. Where one
branch mentions a chance that the other does not, the other gets the node `O c (L c) (L -c)`, which is always true,
so that both branches of a decision mention the same chances. The same makes the root mention every chance.

Nothing is random and nothing is read: the output is the same each time.
"""

from itertools import product

# What the estimator sets, with the floor space in the plant room that each option takes up.
OPTIONS = {
    "free cooling": 2,
    "second chiller": 3,
    "ice store": 3,
    "third fan": 1,
    "stand-by pump": 1,
    "spare damper drive": 1,
}

# What the site sets, with two weights: on how many of a hundred days it is so, and on how many it is not.
CHANCES = {
    "full load": (30, 70),
    "hot day": (12, 88),
    "chiller 1 fails": (6, 94),
    "chiller 2 fails": (7, 93),
    "fan 1 fails": (3, 97),
    "fan 2 fails": (4, 96),
    "duty pump fails": (5, 95),
    "damper sticks": (8, 92),
}

FLOOR_SPACE = 6

# The order in which the compiler decides the variables. It changes the size of the circuit, never its meaning.
ORDER = [
    "full load",
    "fan 1 fails",
    "fan 2 fails",
    "third fan",
    "hot day",
    "second chiller",
    "ice store",
    "stand-by pump",
    "duty pump fails",
    "chiller 1 fails",
    "chiller 2 fails",
    "free cooling",
    "spare damper drive",
    "damper sticks",
]


def serves(on):
    """Whether the hall is kept cool; `on` says of each option and chance whether it is on."""
    # What can be built at all.
    space = sum(taken for option, taken in OPTIONS.items() if on[option])
    if space > FLOOR_SPACE:
        return False
    if on["second chiller"] and on["ice store"]:
        return False  # the roof carries one of the two
    if on["spare damper drive"] and not on["free cooling"]:
        return False  # there is no damper to drive

    # Air: one fan is enough at part load, full load takes two.
    fans = (not on["fan 1 fails"]) + (not on["fan 2 fails"]) + on["third fan"]
    if fans < (2 if on["full load"] else 1):
        return False

    # Cold: one unit at part load, one more at full load, one more on a hot day.
    wanted = 1 + on["full load"] + on["hot day"]
    made = 0
    # Chillers and ice store are of use only while a pump moves the chilled water.
    if on["stand-by pump"] or not on["duty pump fails"]:
        if not on["chiller 1 fails"]:
            made += 2
        if on["second chiller"] and not on["chiller 2 fails"]:
            made += 2
        if on["ice store"]:
            made += 1
    # Free cooling blows in outside air: not on a hot day, and not through a damper that is stuck.
    damper_moves = on["spare damper drive"] or not on["damper sticks"]
    if on["free cooling"] and not on["hot day"] and damper_moves:
        made += 1
    return made >= wanted


class Circuit:
    """The nodes, in the order of the file: each has its line and the set of chances that it mentions."""

    def __init__(self, number, chances):
        self.number = number  # of each variable, from 1
        self.chances = chances
        self.lines = []
        self.mentions = []
        self.known = {}  # the place of each line that stands already: equal nodes are shared

    def node(self, fields, mentions):
        line = "\t".join(str(f) for f in fields)
        if line not in self.known:
            self.known[line] = len(self.lines)
            self.lines.append(line)
            self.mentions.append(frozenset(mentions))
        return self.known[line]

    def literal(self, variable, on):
        sign = "" if on else "-"
        mentions = {variable} & self.chances
        return self.node(["L", sign + str(self.number[variable])], mentions)

    def constant(self, value):
        return self.node(["T" if value else "F"], ())

    def conjunction(self, children):
        mentions = frozenset().union(*(self.mentions[c] for c in children))
        return self.node(["A", *children], mentions)

    def fork(self, variable, on_branch, off_branch):
        assert self.mentions[on_branch] == self.mentions[off_branch]
        return self.node(["O", self.number[variable], on_branch, off_branch], self.mentions[on_branch])

    def either(self, chance):
        """A node that mentions a chance and is true whatever the site does."""
        return self.fork(chance, self.literal(chance, True), self.literal(chance, False))

    def with_chances(self, children, wanted):
        """The children, and with them what is needed to mention all the wanted chances."""
        there = frozenset().union(*(self.mentions[c] for c in children))
        lacking = sorted(wanted - there, key=self.number.get)
        return children + [self.either(c) for c in lacking]

    def is_true(self, place):
        return self.lines[place] == "T"

    def branch(self, variable, on, part, wanted):
        """One branch of a decision: its literal, and the part that then has to hold."""
        children = [self.literal(variable, on)]
        if not self.is_true(part):
            children.append(part)
        children = self.with_chances(children, wanted)
        return children[0] if len(children) == 1 else self.conjunction(children)

    def decision(self, variable, on_part, off_part):
        wanted = self.mentions[on_part] | self.mentions[off_part] | ({variable} & self.chances)
        on_branch = self.branch(variable, True, on_part, wanted)
        off_branch = self.branch(variable, False, off_part, wanted)
        return self.fork(variable, on_branch, off_branch)


def compile_rules(circuit, order, table):
    """The node that is true where the table is.

    The table is a tuple with a truth value for each setting of the variables of the order; those with the first
    variable on come first.
    """
    done = {}

    def build(depth, table):
        if all(table) or not any(table):
            return circuit.constant(table[0])
        key = (depth, table)
        if key not in done:
            half = len(table) // 2
            if table[:half] == table[half:]:
                done[key] = build(depth + 1, table[:half])  # this variable does not matter here
            else:
                on_part = build(depth + 1, table[:half])
                off_part = build(depth + 1, table[half:])
                done[key] = circuit.decision(order[depth], on_part, off_part)
        return done[key]

    return build(0, table)


def reachable(lines, root):
    """The nodes that the root reaches, in order, with their children numbered anew."""
    def children(line):
        letter, *fields = line.split("\t")
        return {"A": fields, "O": fields[1:]}.get(letter, [])

    kept, ahead = set(), [root]
    while ahead:
        place = ahead.pop()
        if place not in kept:
            kept.add(place)
            ahead.extend(int(c) for c in children(lines[place]))
    new = {old: place for place, old in enumerate(sorted(kept))}
    result = []
    for old in sorted(kept):
        fields = lines[old].split("\t")
        own = len(fields) - len(children(lines[old]))
        result.append("\t".join(fields[:own] + [str(new[int(c)]) for c in fields[own:]]))
    return result, sum(len(children(line)) for line in result)


def main():
    names = [*OPTIONS, *CHANCES]
    assert sorted(ORDER) == sorted(names)
    number = {name: place + 1 for place, name in enumerate(names)}

    table = tuple(serves(dict(zip(ORDER, setting))) for setting in product([True, False], repeat=len(ORDER)))
    circuit = Circuit(number, frozenset(CHANCES))
    root = compile_rules(circuit, ORDER, table)
    parts = circuit.with_chances([root], circuit.chances)
    if len(parts) > 1:
        root = circuit.conjunction(parts)
    nodes, child_count = reachable(circuit.lines, root)

    print("G", len(names), len(nodes), child_count, sep="\t")
    for name in names:
        print("V", number[name], "E" if name in OPTIONS else "R", name, sep="\t")
    for line in nodes:
        print(line)
    for chance, (on, off) in CHANCES.items():
        print("W", number[chance], on, off, sep="\t")


if __name__ == "__main__":
    main()
