#!/usr/bin/env python3
"""A host in Python, over the module python/forkhemit.py. It reads two stations' texts and the public one, solves, and prints the answer as the
pair program does. Use: host.py LEFT RIGHT PUBLIC BUDGET, with the module's folder in PYTHONPATH."""

import os
import sys
import forkhemit

if len(sys.argv) != 5:
    sys.exit("use: host.py LEFT RIGHT PUBLIC BUDGET")
try:
    budget = forkhemit.read_budget(os.fsencode(sys.argv[4]) + b"\n")
except forkhemit.Refused as refusal:
    sys.exit(f"host.py: {sys.argv[4]!r} is no budget: {refusal}")
try:
    tables = forkhemit.Tables.of_files(*sys.argv[1:4])
    printed = forkhemit.answer(tables.n, *tables.solve(budget))
except forkhemit.Refused as refusal:
    print(f"host.py: {refusal}", file=sys.stderr)
    printed = f"c refused {refusal.number}\ns UNKNOWN\n".encode()
try:
    os.write(1, printed)
except OSError as error:
    sys.exit(f"host.py: {error}")
