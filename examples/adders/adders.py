#!/usr/bin/env python3
"""A miter: two adders over the same inputs, and the claim that some output differs. Without a model they add alike. The
first adder makes each carry as a count ("at least 2 of 3"), the second from gates."""

import os
import sys

sys.path.insert(0, os.path.join(os.path.dirname(os.path.abspath(__file__)), ".."))
from answer import run  # noqa: E402
from knftext import at_least, clause, text  # noqa: E402


class Circuit:
    """Variables and constraints, gate by gate."""

    def __init__(self):
        self.variables = 0
        self.constraints = []

    def wire(self):
        self.variables += 1
        return self.variables

    def gate(self, clauses):
        """A new wire for which each of these makes clauses."""
        out = self.wire()
        self.constraints += [clause(c) for c in clauses(out)]
        return out

    def and_(self, a, b):
        return self.gate(lambda o: [[-o, a], [-o, b], [o, -a, -b]])

    def or_(self, a, b):
        return self.gate(lambda o: [[o, -a], [o, -b], [-o, a, b]])

    def xor(self, a, b):
        return self.gate(lambda o: [[-o, a, b], [-o, -a, -b], [o, -a, b], [o, a, -b]])

    def majority(self, a, b, c):
        """True exactly where at least two are: one klause for each way."""
        out = self.wire()
        self.constraints += [at_least(2, [a, b, c], guard=out), at_least(2, [-a, -b, -c], guard=-out)]
        return out

    def false(self):
        out = self.wire()
        self.constraints.append(clause([-out]))
        return out


def counted_sum(circuit, a, b):
    carry, outs = circuit.false(), []
    for x, y in zip(a, b):
        outs.append(circuit.xor(circuit.xor(x, y), carry))
        carry = circuit.majority(x, y, carry)
    return outs + [carry]


def gated_sum(circuit, a, b, fault):
    carry, outs = circuit.false(), []
    for bit, (x, y) in enumerate(zip(a, b)):
        half = circuit.xor(x, y)
        outs.append(circuit.xor(half, carry))
        passed = circuit.false() if fault == str(bit) else circuit.and_(half, carry)
        carry = circuit.or_(circuit.and_(x, y), passed)
    return outs + [carry]


def build(rows):
    """The circuit, and its input wires."""
    said = dict(rows)
    circuit = Circuit()
    a = [circuit.wire() for _ in range(int(said["bits"]))]
    b = [circuit.wire() for _ in range(int(said["bits"]))]
    outs = zip(counted_sum(circuit, a, b), gated_sum(circuit, a, b, said["fault"]))
    circuit.constraints.append(clause([circuit.xor(x, y) for x, y in outs]))
    return circuit, a, b


def write(rows):
    circuit, _, _ = build(rows)
    return text(circuit.variables, circuit.constraints)


def tell(rows, model):
    if model is None:
        return ["the two add alike"]
    _, a, b = build(rows)
    values = [sum(1 << at for at, wire in enumerate(wires) if wire in model) for wires in (a, b)]
    return [f"they differ at {values[0]} + {values[1]}"]


if __name__ == "__main__":
    run(write, tell)
