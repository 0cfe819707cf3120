#!/usr/bin/env python3
"""Holds python/forkhemit.py to the header, to the shared library's symbols, to the two programs and to brute force. The last line counts, `N passed,
M failed`. Use: tests/module.py, after `make`; PYTHONPATH and FORKHEMIT_LIBRARY may name an installed module and library instead."""

import collections
import ctypes
import itertools
import os
import random
import re
import subprocess
import sys
import tempfile

ROOT = os.path.join(os.path.dirname(os.path.abspath(__file__)), "..")
sys.dont_write_bytecode = True
sys.path.append(os.path.join(ROOT, "python"))
import forkhemit as f

RANDOM = random.Random(36)
HARBOUR = os.path.join(ROOT, "examples", "harbour")
PAIR, CIRCUIT = (os.path.join(ROOT, "target", "static", name) for name in ("pair", "circuit"))
counted = collections.Counter()
called = set()


def expect(what, found, wanted=True):
    """One test."""
    good = found == wanted
    counted[good] += 1
    if not good:
        print(f"FAILED: {what}: {found!r}, and not {wanted!r}"[:500])


def refusal(number, function, *arguments):
    """The call is refused with this number and its sentence."""
    try:
        function(*arguments)
        found = None
    except f.Refused as refused:
        found = (refused.number, refused.sentence, str(refused))
    expect(f"refusal {number}", found, (number, f.REFUSALS[number], f"refused {number}: {f.REFUSALS[number]}"))


def raises(error, function, *arguments):
    """The call ends in Python, before the library."""
    try:
        function(*arguments)
        found = None
    except Exception as raised:
        found = type(raised)
    expect(f"{error.__name__} of {function} {str(arguments)[:80]}", found, error)


# ---- beside the header


def header():
    """Functions by name with their parameters, in the words of PARAMETERS; refusal numbers; sentences; all numbers that have a name."""
    with open(os.environ.get("FORKHEMIT_HEADER", os.path.join(ROOT, "include", "forkhemit.h"))) as file:
        text = file.read()
    numbers = {name: int(value) for name, value in re.findall(r"#define FORKHEMIT_(\w+) (\d+)$", text, re.M)}
    enums = {kind: {name: int(value) for name, value in re.findall(r"FORKHEMIT_(\w+) = (\d+)", body)} for kind, body in re.findall(r"enum (\w+) \{(.*?)\}", text, re.S)}
    for named in enums.values():
        numbers.update(named)
    sentences = {int(number): sentence for number, sentence in re.findall(r'^    X\((\d+), "(.*)"\)', text, re.M)}
    short = {"uint64_t": "n", "uint32_t": "w", "uint8_t": "b"}
    functions = {}
    code = re.sub(r"/\*.*?\*/", "", text, flags=re.S)
    for result, name, given in re.findall(r"^(\w+) forkhemit_(\w+)\((.*?)\);", code, re.M | re.S):
        kinds, pointers = [], []
        for parameter in [] if given == "void" else re.split(r",\s*", given):
            element, pointer, _, length = re.fullmatch(r"(?:const )?(\w+) (\*?)(\w+?)(?:\[(\w+)\])?", parameter.strip()).groups()
            if element == "size_t":
                expect(f"{name}: a length behind its pointer", pointers.pop())
                kinds[-1] += "[]"
                continue
            pointers = [True] if pointer else []
            size = f"[{numbers[length[10:]] if length.startswith('FORKHEMIT_') else length}]" if length else ""
            kinds.append(short[element] + size)
        functions[name] = " ".join(kinds)
        expect(f"{name} returns a byte, but for the version", result, "uint64_t" if name == "version" else "uint8_t")
    return functions, enums["forkhemit_refusal_number"], sentences, numbers


def beside_the_header():
    functions, refusals, sentences, numbers = header()
    exported = subprocess.run(["nm", "-D", "--defined-only", library()], capture_output=True, text=True, check=True).stdout
    exported = {line.split()[2][len("forkhemit_") :] for line in exported.splitlines()}
    for name in sorted(exported | set(f.PARAMETERS)):
        expect(f"{name} is in the library and in the module", (name in exported, name in f.PARAMETERS), (True, True))
    for name, parameters in functions.items():
        expect(f"{name} takes what the header says", f.PARAMETERS.get(name), parameters)
    for name, number in refusals.items():
        expect(f"{name} has a sentence", number in sentences or number == 0)
    expect("the sentences", f.REFUSALS, sentences)
    expect("the sentences' numbers", sorted(sentences), list(range(1, len(sentences) + 1)))
    expect("the version", (f.VERSION, f.version()), (numbers["VERSION_MAJOR"] * 10000 + numbers["VERSION_MINOR"] * 100 + numbers["VERSION_PATCH"],) * 2)
    for name, number in numbers.items():
        if hasattr(f, name):
            expect(name, getattr(f, name), number)
    expect("its names of numbers", len([name for name in numbers if hasattr(f, name)]) >= 19)


def library():
    """The shared library that the module has loaded."""
    with open("/proc/self/maps") as maps:
        return next(line.split()[-1] for line in maps if "libforkhemit.so" in line)


# ---- beside the programs and brute force


def dimacs(n, clauses):
    """A DIMACS text."""
    return "".join([f"p cnf {n} {len(clauses)}\n"] + [" ".join(map(str, clause)) + " 0\n" for clause in map(list, clauses)]).encode()


def some_clauses(n, count, most=3):
    return [[RANDOM.choice((1, -1)) * v for v in RANDOM.sample(range(1, n + 1), RANDOM.randint(1, min(n, most)))] for _ in range(count)]


def true(model, clauses):
    return all(any((model >> (abs(literal) - 1) & 1) == (literal > 0) for literal in clause) for clause in clauses)


def pair(texts, budget):
    """What the pair program prints."""
    with tempfile.TemporaryDirectory() as room:
        for name, text in zip(("left", "right", "public"), texts):
            with open(os.path.join(room, name + ".cnf"), "wb") as file:
                file.write(text)
        return subprocess.run([PAIR], cwd=room, input=f"{budget}\n".encode(), capture_output=True, check=True).stdout


def printed(texts, budget):
    """The same by the module."""
    try:
        tables = f.Tables.of_texts(*texts)
        return f.answer(tables.n, *tables.solve(budget))
    except f.Refused as refused:
        return f"c refused {refused.number}\ns UNKNOWN\n".encode()


def beside_pair():
    for _ in range(60):
        n = RANDOM.randint(1, 10)
        texts = [dimacs(n, some_clauses(n, RANDOM.randint(1, 12))) for _ in range(3)]
        if RANDOM.random() < 0.3:
            place = RANDOM.randrange(3)
            texts[place] = texts[place].replace(*RANDOM.choice([(b"cnf", b"cnx"), (b" 0\n", b"\n"), (b"p cnf ", b"p cnf 3"), (b"p", b"c remark\np")]))
        budget = RANDOM.choice([0, 1, 2, 5, 1000])
        expect("the pair program", printed(texts, budget), pair(texts, budget))
    files = [os.path.join(HARBOUR, name) for name in ("left.cnf", "right.cnf", "public.cnf")]
    with open(os.path.join(HARBOUR, "answer"), "rb") as file:
        tables = f.Tables.of_files(*files)
        expect("the harbour", f.answer(tables.n, *tables.solve(1000)), file.read())
    refusal(5, f.Tables.of_files, files[0], files[1], os.path.join(HARBOUR, "none.cnf"))


def tried(clauses, n):
    """Runs of every kind over the same tables, and what all assignments say."""
    cut = sorted((RANDOM.randint(1, len(clauses) - 1), RANDOM.randint(1, len(clauses))))
    parts = clauses[: cut[0]], clauses[cut[0] : cut[1]] or [[1, -1]], clauses[cut[1] :]
    tables = f.Tables.of_clauses(n, *parts)
    tables.accept()
    expect("rows", tables.rows(), [f.words(clause) for part in parts for clause in part])
    models = [model for model in range(1 << n) if true(model, clauses)]
    answer = tables.solve(1 << 40)
    expect("the verdict", answer.verdict, f.SATISFIABLE if models else f.UNSATISFIABLE)
    expect("the model", answer.model in models if models else answer.model == 0)
    expect("the literals", true(answer.model, [[literal] for literal in f.literals(n, answer.model)]))
    expect("with an index", tables.solve_indexed(1 << 40), answer)
    weighted = tables.solve_weighted(1 << 40)
    expect("weighted", weighted.verdict == answer.verdict and (not models or weighted.model in models))
    whole = tables.solve_whole(answer.steps + 3)
    expect("through the whole budget", whole, f.Answer(answer.steps + 3, answer.verdict, answer.model))
    run, slices, steps = tables.fresh(), tables.fresh(), 0
    expect("fresh", (run.n, run.standing, run.true, run.false, run.depth), (n, f.OPEN, 0, 0, 0))
    while slices.standing == f.OPEN:
        steps += tables.continue_(slices, 3).steps
    repeated = tables.repeat(run, 1 << 20)
    expect("in slices", (steps, slices.standing), (answer.steps, answer.verdict))
    expect("by the circuit", (repeated, run == slices), (f.Repeated(answer.steps, 1), True))
    expect("continued weighted", tables.continue_weighted(tables.fresh(), 1 << 40), f.Continued(weighted.steps, 1))
    if models:
        expect("the run's model", run.model(), answer.model)
        expect("the page", (f.read_page(n, 1, n, run.page(1, n)), f.read_page(n, n, 1, run.page(n, 1))), (answer.model,) * 2)
        expect("the page's first line", run.page(1, n).decode(), "  1" + "".join(" #" if answer.model >> i & 1 else " ." for i in range(n)).ljust(76) + "\n")
    else:
        refusal(14, run.model)
        refusal(14, run.page, 1, n)
    return tables, answer


def wires_of(tables, run):
    """The circuit's inputs in the order that the header gives."""
    n = tables.n
    bits = lambda word: [word >> k & 1 for k in range(n)]
    wires = [bit for row in tables.rows() for word in row for bit in bits(word)]
    wires += bits(run.true) + bits(run.false) + [int(k == run.depth) for k in range(n + 1)]
    for level in range(n):
        true_before, false_before, chosen = run.words[5 + 3 * level : 8 + 3 * level]
        wires += bits(true_before) + bits(false_before) + [int(level < run.depth and k == chosen) for k in range(n)]
    return bytes(wires + [int(run.standing == f.SATISFIED), int(run.standing == f.REFUTED)])


def stepped(tables):
    """Single steps of every kind leave the same run, and numbers and counts that Python finds too."""
    run, index = tables.fresh(), tables.index()
    number = tables.unsatisfied(run)
    circuit = tables.circuit()
    while run.standing == f.OPEN:
        others = [run.copy() for _ in range(3)]
        wires = circuit.evaluate(tables.pack(run))
        state, mark = circuit.next(wires)
        tables.step(run)
        number = tables.step_indexed(others[0], index, number)
        told = tables.explain(others[1])
        tables.step_weighted(others[2])
        expect("steps", others[0] == run and others[1] == run and f.read_back(tables.n, state) == run)
        if told.rule != f.CHOSEN:
            expect("a weighted step", others[2] == run)
        expect("the order of the wires", tables.pack(run), wires_of(tables, run))
        expect("the mark", mark, int(run.standing != f.OPEN))
        expect("the state among the wires", state, tables.pack(run)[-circuit.sizes.state_wires :])
        rows = [f.judge(*row, run.true, run.false) for row in tables.rows()]
        expect("judged", [row.satisfied for row in rows], [int(bool(p & run.true or m & run.false or p & m)) for p, m in tables.rows()])
        expect("unsatisfied", (number, tables.unsatisfied(run)), (sum(not row.satisfied for row in rows),) * 2)
        expect("counts", list(tables.count_free(run)), [row.free for row in rows])
        set_by = {f.ALL_SATISFIED: 0, f.CONFLICT_WITHOUT_LEVEL: 0}.get(told.rule, told.variable)
        expect("the explanation", told.variable == set_by and (told.variable == 0 or (run.true if told.value else run.false) >> (told.variable - 1) & 1 == 1))


def runs():
    for _ in range(25):
        n = RANDOM.randint(1, 6)
        clauses = some_clauses(n, RANDOM.randint(2, 4 * n + 1))
        tables, _ = tried(clauses, n)
        stepped(tables)


# ---- the circuit, columns, games, proofs


def gate_by_gate(circuit, inputs):
    """All wires, by the gates' three words alone."""
    wires, (memory, length) = list(inputs), circuit.gates
    for kind, a, b in zip(*(memory[k:length:3] for k in range(3))):
        wires.append(1 - wires[a] if kind == 2 else wires[a] & wires[b] if kind == 1 else wires[a] ^ wires[b])
    return bytes(wires)


def circuits():
    for dimensions in ((1, 1, 1, 0), (2, 3, 1, 2), (3, 4, 4, 4)):
        circuit = f.Circuit(*dimensions)
        line = " ".join(map(str, dimensions)) + "\n"
        text = subprocess.run([CIRCUIT], input=line.encode(), capture_output=True, check=True).stdout
        expect("the circuit program", b"".join(circuit.text()), text)
        expect("in parts of a line", b"".join(circuit.text(f.LINE_BYTES)), text)
        expect("line by line", [circuit.line(k) for k in range(circuit.count + 4)], text.splitlines(True))
        expect("past the last line", circuit.line(circuit.count + 4), b"")
        expect("the ceiling", circuit.count <= circuit.sizes.ceiling and circuit.sizes.gate_words == 3 * circuit.sizes.ceiling)
        inputs = bytes(RANDOM.randint(0, 1) for _ in range(circuit.sizes.inputs))
        expect("evaluated", circuit.evaluate(inputs), gate_by_gate(circuit, inputs))
        refusal(10, circuit.evaluate, inputs[:-1] + b"\2")
    refusal(11, lambda: list(circuit.text(3)))
    refusal(9, f.evaluate, ((ctypes.c_uint32 * 3)(7, 0, 0), 3), b"\0")
    refusal(10, f.read_back, 3, b"\0")


def by_columns():
    for count in (0, 1, 31, 32, 33, 100, 128):
        n = RANDOM.randint(1, 32)
        table = [(RANDOM.randrange(1 << n), RANDOM.randrange(1 << n)) for _ in range(count)]
        planes = f.columns(n, table)
        own = [
            sum((table[k][sign] >> v & 1) << (k - first) for k in range(first, min(first + 32, count)))
            for first in range(0, count, 32)
            for sign in (0, 1)
            for v in range(32)
        ]
        expect("columns", planes, own)
        expect("and rows again", f.rows(n, count, planes), table)
    refusal(24, f.rows, 31, 1, [0] * 31 + [1] + [0] * 32)
    refusal(3, f.columns, 2, [(4, 0)])
    refusal(2, f.columns, 2, [(1, 0)] * 129)
    refusal(2, f.rows, 2, 1 << 63, [0] * 64)
    refusal(4, f.rows, 2, 1, [0] * 63)


def won(order, fixed, clauses):
    """Whether the existential side wins, by trying all."""
    if not order:
        return true(sum(1 << (v - 1) for v, value in fixed.items() if value), clauses)
    (side, variable), rest = order[0], order[1:]
    both = (won(rest, {**fixed, variable: value}, clauses) for value in (1, 0))
    return any(both) if side == "e" else all(both)


def games():
    for _ in range(40):
        n = RANDOM.randint(1, 5)
        clauses, order = some_clauses(n, RANDOM.randint(1, 6)), [(RANDOM.choice("ea"), v) for v in RANDOM.sample(range(1, n + 1), n)]
        text = dimacs(n, clauses)
        at = text.index(b"\n") + 1
        found = f.game(text[:at] + "".join(f"{side} {v} 0\n" for side, v in order).encode() + text[at:])
        existential = won(order, {}, clauses)
        expect("the winner", found.winner, f.EXISTENTIAL if existential else f.UNIVERSAL)
        first = order[0][1] if (order[0][0] == "e") == existential else 0
        values = [value for value in (1, 0) if first and won(order[1:], {first: value}, clauses) == existential]
        expect("the first variable and its value", (found.variable, found.value), (first, values[0] if values else 0))
    refusal(21, f.game, b"p cnf 13 1\n1 0\n")
    refusal(22, f.game, b"p cnf 1 1\ne 2 0\n1 0\n")


def proofs():
    read = lambda *names: open(os.path.join(HARBOUR, *names), "rb").read()
    tables = f.Tables.of_texts(read("left.cnf"), read("unsatisfiable", "right.cnf"), read("public.cnf"))
    expect("the proof", tables.check_proof(read("unsatisfiable", "proof.drat")), None)
    refusal(18, tables.check_proof, b"x\n")
    refusal(19, tables.check_proof, b"0\n")
    refusal(20, tables.check_proof, b"")
    refusal(19, f.Tables.of_texts(read("left.cnf"), read("right.cnf"), read("public.cnf")).check_proof, read("unsatisfiable", "proof.drat"))


def late_and_clauses():
    left, right = dimacs(2, [[1, -1], [-1, 2]]), b"p cnf 2 1\n-1\n-2 0\n"
    tables, run = f.Tables.of_texts(left, right, b"p cnf 2 0\n"), f.Run(2)
    other, index = f.Tables.of_texts(left, right, b"p cnf 2 0\n"), f.Tables.of_texts(left, right, b"p cnf 2 0\n").index()
    expect("a clause", (tables.clause(left, right, 3), tables.excerpt(left, right, 3)), (f.Place(f.RIGHT, 10, 7), b"-1\n-2 0"))
    refusal(17, tables.excerpt, left, right, 4)
    refusal(15, tables.replace, run, f.RIGHT, 1, [1])
    refusal(3, tables.replace, run, f.LEFT, 1, [3])
    number = other.unsatisfied(run)
    tables.replace(run, f.LEFT, 1, [1])
    number = other.replace_indexed(run, f.LEFT, 1, [1], index, number)
    expect("replaced", (tables.rows()[0], other.rows(), number, index[:]), ((1, 0), tables.rows(), tables.unsatisfied(run), tables.index()[:]))
    expect("the clause of a replaced row", (tables.clause(left, right, 1), tables.excerpt(left, right, 1)), (f.Place(f.LEFT, 0, 0), b""))
    refusal(12, tables.step_indexed, run, index, number + 1)
    expect("closed", tables.continue_(run, 100).closed, 1)
    refusal(16, f.Tables.of_texts(left, right, b"p cnf 2 0\n").replace, run, f.LEFT, 1, [1])


def refusals():
    refusal(1, f.Run, 33)
    refusal(2, f.sizes, 3, 0, 1, 0)
    refusal(3, f.Tables.of_clauses(2, [[3]], [[1]]).solve, 1)
    refusal(2, f.Tables.of_clauses(2, [[1]] * 129, [[1]]).accept)
    refusal(4, f.call, "accept", 2, 1, 1, 0, *[(f._array("w", 1), 1)] * 3)
    refusal(6, f.Tables.of_texts, b"p cnf 1 1\n1 0\n", b"p cnf 2 1\n1 0\n", b"p cnf 1 0\n")
    refusal(7, f.call, "generate", 1, 1, 1, 0, f._array("w", 3), f._array("n", 1))
    refusal(8, f.read_budget, b"5")
    expect("a budget", f.read_budget(b"18446744073709551615\n"), (1 << 64) - 1)
    one = f.Tables.of_clauses(1, [[1]], [[1]])
    refusal(12, one.step, f.Run(1, [9] * f.RUN_WORDS))
    refusal(13, one.step, f.Run(2))
    refusal(23, one.solve_whole, 65536)
    closed = one.fresh()
    one.continue_(closed, 9)
    refusal(25, closed.page, 1 << 63, 2)
    refusal(25, closed.page, 2, 2)
    refusal(26, f.read_page, 1, 1, 1, b"")
    refusal(27, f.read_page, 1, 1, 1, bytes(80))
    for budget in (-1, 1 << 64):
        raises(OverflowError, one.solve, budget)
    for budget in ("5", 5.0, None):
        raises(TypeError, one.solve, budget)
    raises(TypeError, f.call, "fresh", 1)
    raises(TypeError, f.call, "fresh", 1, f._array("w", 100))
    raises(TypeError, f.call, "fresh", 1, f._array("n", 101))
    raises(TypeError, f.call, "game", (f._array("b", 3), 4), f._array("n", 3))
    raises(ValueError, f.words, [33])
    raises(ValueError, f.Run, 1, [0] * 100)
    raises(OverflowError, f.Run, 1, [1 << 32] * 101)
    raises(OverflowError, f.rows, 1, 1, [1 << 32] * 64)
    raises(OverflowError, f.columns, 1, [(-1, 0)])
    raises(OverflowError, one.step_indexed, one.fresh(), one.index(), -1)
    raises(OverflowError, f.Tables, 1, [(1 << 32, 0)], [(0, 0)])


def other_library():
    """A module for another first number, or for a later second one, does not load."""
    with open(f.__file__) as file:
        source = file.read()
    for version in (99, f.VERSION + 100, f.VERSION + 10000):
        with tempfile.TemporaryDirectory() as room:
            with open(os.path.join(room, "forkhemit.py"), "w") as file:
                file.write(re.sub(r"^VERSION = \d+$", f"VERSION = {version}", source, flags=re.M))
            ran = subprocess.run([sys.executable, "-B", "-c", "import forkhemit"], env={**os.environ, "PYTHONPATH": room, "FORKHEMIT_LIBRARY": library()}, capture_output=True, text=True)
            expect(f"a module for version {version}", "ImportError: the library's version" in ran.stderr and ran.returncode == 1)


real = f.call


def watched(name, *arguments):
    called.add(name)
    return real(name, *arguments)


f.call = watched
beside_the_header()
for part in (beside_pair, runs, circuits, by_columns, games, proofs, late_and_clauses, refusals, other_library):
    part()
expect("functions that no test calls", sorted(set(f.PARAMETERS) - called), [])
print(f"{counted[True]} passed, {counted[False]} failed")
sys.exit(counted[False] > 0)
