"""Quantified Boolean formulas in prenex clause form, in families, from fixed seeds.

`problems()` gives family, name and text in the QDIMACS format; the clauses of a circuit are those of its gates, whose
variables stand in the innermost existential block.
"""
import itertools
import random


class Circuit:
    """Blocks of inputs, gates over them, and clauses."""

    def __init__(self):
        self.count, self.blocks, self.gates, self.clauses = 0, [], [], []

    def new(self):
        self.count += 1
        return self.count

    def inputs(self, quantifier, count):
        """New variables in a block of their own, which comes behind the blocks before."""
        names = [self.new() for _ in range(count)]
        self.blocks.append((quantifier, names))
        return names

    def gate(self):
        name = self.new()
        self.gates.append(name)
        return name

    def all_of(self, literals):
        out = self.gate()
        self.clauses += [[-out, literal] for literal in literals] + [[out, *(-literal for literal in literals)]]
        return out

    def one_of(self, literals):
        return -self.all_of([-literal for literal in literals])

    def xor(self, a, b):
        out = self.gate()
        self.clauses += [[-out, a, b], [-out, -a, -b], [out, -a, b], [out, a, -b]]
        return out

    def choice(self, which, a, b):
        out = self.gate()
        self.clauses += [[-which, -a, out], [-which, a, -out], [which, -b, out], [which, b, -out]]
        return out

    def majority(self, a, b, c):
        return self.one_of([self.all_of([a, b]), self.all_of([a, c]), self.all_of([b, c])])

    def text(self, asserted):
        blocks = [*self.blocks, ("e", self.gates)]
        clauses = [*self.clauses, *([literal] for literal in asserted)]
        return text_of(self.count, blocks, clauses)


def text_of(count, blocks, clauses):
    lines = [f"p cnf {count} {len(clauses)}"]
    lines += [" ".join([quantifier, *map(str, names), "0"]) for quantifier, names in blocks if names]
    lines += [" ".join([*map(str, clause), "0"]) for clause in clauses]
    return "\n".join(lines) + "\n"


def by_chance(sizes, literals, clauses, rng):
    """Blocks of these sizes, the first of them universal where two follow, and clauses with so many literals of each."""
    blocks, first = [], 1
    for place, size in enumerate(sizes):
        quantifier = "e" if (len(sizes) - place) % 2 else "a"
        blocks.append((quantifier, list(range(first, first + size))))
        first += size
    chosen = []
    for _ in range(clauses):
        names = [name for (_, block), count in zip(blocks, literals) for name in rng.sample(block, count)]
        chosen.append([name if rng.random() < 0.5 else -name for name in names])
    return text_of(first - 1, blocks, chosen)


def two_blocks():
    """For all, there is: one literal and two of each clause."""
    for size, ratio in itertools.product((20, 40, 60, 80, 100), (1.5, 1.8)):
        rng = random.Random(f"two {size} {ratio}")
        yield f"two-{size}-{ratio}", by_chance((size, size), (1, 2), int(size * ratio), rng)


def three_blocks():
    """There is, for all, there is: two, one and two literals of each clause."""
    for size, ratio in itertools.product((10, 15, 20, 25, 30), (6.0, 8.0)):
        rng = random.Random(f"three {size} {ratio}")
        yield f"three-{size}-{ratio}", by_chance((size, size, size), (2, 1, 2), int(size * ratio), rng)


def walk(nodes, moves, seed):
    """A token goes along the edges of a graph, moved by both in turn; who has to move and chooses none loses.

    A move is the number of an edge of the node, in two bits, of which some lead nowhere. The first player moves first.
    """
    rng = random.Random(f"walk {nodes} {moves} {seed}")
    edges = [[rng.randrange(nodes) if rng.random() < 0.75 else None for _ in range(4)] for _ in range(nodes)]
    circuit = Circuit()
    chosen = [circuit.inputs("e" if move % 2 == 0 else "a", 2) for move in range(moves)]
    at = {0: None}
    lost = []
    for move, (low, high) in enumerate(chosen):
        reached, stuck = {}, []
        for node, here in at.items():
            for place, to in enumerate(edges[node]):
                taken = [low if place % 2 else -low, high if place // 2 else -high]
                takes = circuit.all_of(taken if here is None else [here, *taken])
                stuck.append(takes) if to is None else reached.setdefault(to, []).append(takes)
        lost.append(circuit.one_of(stuck))
        at = {node: circuit.one_of(ways) for node, ways in reached.items()}
        if not at:
            break
    # The first player doesn't lose before the second one does.
    good = circuit.one_of([])
    for move in reversed(range(len(lost))):
        good = circuit.one_of([lost[move], good]) if move % 2 else circuit.all_of([-lost[move], good])
    return circuit.text([good])


def walks():
    for place, (nodes, moves) in enumerate(itertools.product((6, 12), (5, 7, 9, 11, 13))):
        yield f"walk-{nodes}-{moves}", walk(nodes, moves, place)


def added(circuit, a, b, carry=None):
    out = []
    for x, y in zip(a, b):
        if carry is None:
            out.append(circuit.xor(x, y))
            carry = circuit.all_of([x, y])
        else:
            half = circuit.xor(x, y)
            out.append(circuit.xor(half, carry))
            carry = circuit.majority(x, y, carry)
    return out


def sums():
    """Some words k make (x + y) + k and (x + c) + (y + d) the same word for all x and y, where no bit of k is fixed, or one."""
    for width, fixed in itertools.product((4, 8, 12, 16, 24), (False, True)):
        rng = random.Random(f"sums {width} {fixed}")
        c, d = rng.randrange(2**width), rng.randrange(2**width)
        circuit = Circuit()
        k = circuit.inputs("e", width)
        x, y = circuit.inputs("a", width), circuit.inputs("a", width)
        one = circuit.all_of([])
        word = lambda value: [one if value >> place & 1 else -one for place in range(width)]
        left = added(circuit, added(circuit, x, y), k)
        right = added(circuit, added(circuit, x, word(c)), added(circuit, y, word(d)))
        same = [-circuit.xor(a, b) for a, b in zip(left, right)]
        wrong = [k[0] if not (c + d) & 1 else -k[0]] if fixed else []
        yield f"sums-{width}{'-wrong' if fixed else ''}", circuit.text([*same, *wrong])


def synthesis():
    """A chain of gates of two inputs, each any gate of any two wires before, has the values of a function by chance."""
    for inputs, gates, place in ((2, 1, 0), (3, 1, 0), (3, 2, 0), (3, 2, 1), (3, 3, 0), (3, 3, 1), (3, 4, 0), (4, 3, 0),
                                 (4, 3, 1), (4, 4, 0)):
        rng = random.Random(f"synthesis {inputs} {gates} {place}")
        values = [rng.randrange(2) for _ in range(2**inputs)]
        circuit = Circuit()
        tables = circuit.inputs("e", 4 * gates)
        wires = [(circuit.inputs("e", inputs + gate), circuit.inputs("e", inputs + gate)) for gate in range(gates)]
        for pair in wires:
            for names in pair:
                circuit.clauses.append(list(names))
        x = circuit.inputs("a", inputs)
        known = list(x)
        for gate in range(gates):
            table = tables[4 * gate:4 * gate + 4]
            a, b = [circuit.one_of([circuit.all_of([name, wire]) for name, wire in zip(names, known)])
                    for names in wires[gate]]
            known.append(circuit.choice(a, circuit.choice(b, table[3], table[2]), circuit.choice(b, table[1], table[0])))
        rows = [circuit.all_of([x[bit] if row >> bit & 1 else -x[bit] for bit in range(inputs)])
                for row in range(2**inputs) if values[row]]
        yield f"synthesis-{inputs}-{gates}-{place}", circuit.text([-circuit.xor(known[-1], circuit.one_of(rows))])


def parities():
    """Some values of n variables have a parity that isn't that of a universal variable behind them, or some variable's behind it."""
    for count, last in itertools.product((8, 16, 32, 64, 128), (False, True)):
        circuit = Circuit()
        names = circuit.inputs("e", count)
        z = circuit.inputs("a", 1)[0]
        behind = circuit.inputs("e", 1) if last else []
        parity = names[0]
        for name in [*names[1:], *behind]:
            parity = circuit.xor(parity, name)
        yield f"parity-{count}{'-behind' if last else ''}", circuit.text([circuit.xor(parity, z)])


FAMILIES = {"two blocks": two_blocks, "three blocks": three_blocks, "walks on graphs": walks, "sums": sums,
            "synthesis": synthesis, "parities": parities}


def problems():
    for family, members in FAMILIES.items():
        for name, text in members():
            yield family, name, text


def script_of(text):
    """The same as a script over Bool."""
    lines = [line.split() for line in text.splitlines() if line[0] != "p"]
    literal = lambda word: f"(not v{word[1:]})" if word[0] == "-" else f"v{word}"
    body = [" ".join(["(or", *map(literal, words[:-1]), "false)"]) for words in lines if words[0] not in "ae"]
    blocks = [words for words in lines if words[0] in "ae"]
    out = ["(set-logic BV)"]
    while blocks and blocks[0][0] == "e":
        out += [f"(declare-const v{word} Bool)" for word in blocks.pop(0)[1:-1]]
    heads = [(f"({'forall' if words[0] == 'a' else 'exists'} ("
              + " ".join(f"(v{word} Bool)" for word in words[1:-1]) + ")") for words in blocks]
    if blocks:
        out.append("(assert " + " ".join(heads) + " (and true\n" + "\n".join(body) + ")" + ")" * len(heads) + ")")
    else:
        out += [f"(assert {clause})" for clause in body]
    return "\n".join([*out, "(check-sat)"]) + "\n"
