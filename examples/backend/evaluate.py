#!/usr/bin/env python3
"""A reference for back ends: evaluates a circuit in Bristol Fashion again and again, in the clear. It shares no code with Forkhemit.
Use: evaluate.py CIRCUIT TIMES all|last INPUT.. Each INPUT is a file with one line of 0 and 1, an input value of the circuit; the last is the
state. After a repeat the first output value takes the state's place, and the second is the mark. With `all` each repeat's state and mark are
printed, and it ends with the first mark 1; with `last` the circuit is repeated TIMES times, whatever the marks, and the last state is printed."""

import sys

circuit, times, shown, *paths = sys.argv[1:]
with open(circuit) as file:
    lines = [line.split() for line in file]
count, wires = map(int, lines[0])
inputs, outputs = ([int(size) for size in line[1:]] for line in lines[1:3])
gates = [(line[-1], int(line[2]), int(line[-3]), int(line[-2])) for line in lines[3:] if line]
values = [[int(bit) for bit in open(path).read().strip()] for path in paths]
if [len(value) for value in values] != inputs or len(gates) != count or {gate[0] for gate in gates} - {"XOR", "AND", "INV"}:
    sys.exit("circuit and inputs do not fit")


def evaluate(first):
    """The values of the last wires, which are the outputs."""
    value = first + [None] * (wires - len(first))
    for kind, a, b, result in gates:
        value[result] = value[a] ^ value[b] if kind == "XOR" else value[a] & value[b] if kind == "AND" else 1 - value[a]
    return value[wires - sum(outputs) :]


for _ in range(int(times)):
    *values[-1], mark = evaluate([bit for value in values for bit in value])
    if shown == "all":
        print("".join(map(str, values[-1])), mark)
        if mark == 1:
            break
if shown == "last":
    print("".join(map(str, values[-1])))
