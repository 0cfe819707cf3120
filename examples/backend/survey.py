#!/usr/bin/env python3
"""What a circuit in Bristol Fashion costs, and what a back end may leave out. It shares no code with Forkhemit. Use: survey.py CIRCUIT"""

import sys

with open(sys.argv[1]) as file:
    lines = [line.split() for line in file]
wires, outputs = int(lines[0][1]), sum(map(int, lines[2][1:]))
gates = [(line[-1], int(line[2]), int(line[-3]), int(line[-2])) for line in lines[3:] if line]

constant, depth, idle = {}, [0] * wires, set()
for kind, a, b, result in gates:
    known = [constant[wire] for wire in {a, b} if wire in constant]
    if kind == "AND" and known:
        idle.add(result)
    if kind == "AND" and 0 in known or kind == "XOR" and a == b:
        constant[result] = 0
    elif len(known) == len({a, b}):
        constant[result] = 1 - known[0] if kind == "INV" else sum(known) % 2 if kind == "XOR" else 1
    depth[result] = max(depth[a], depth[b]) + (kind == "AND")

needed = set(range(wires - outputs, wires))
for kind, a, b, result in reversed(gates):
    if result in needed:
        needed.update((a, b))
unneeded = [kind for kind, _, _, result in gates if result not in needed]

for kind in ("XOR", "AND", "INV"):
    print(sum(gate[0] == kind for gate in gates), kind, "gates")
print(max(depth), "AND gates one behind the other")
print(sum(kind == "XOR" and a == b for kind, a, b, _ in gates), "XOR gates of one wire twice, each a zero")
print(len(idle), "AND gates with a constant operand")
print(len(unneeded), "gates whose value no output needs,", unneeded.count("AND"), "of them AND")
print(sum(kind == "AND" and result in needed and result not in idle for kind, _, _, result in gates), "AND gates without those")
