"""Forkhemit for Python 3, over the shared library. It needs only Python's own library.

    import forkhemit
    tables = forkhemit.Tables.of_files("left.cnf", "right.cnf", "public.cnf")
    answer = tables.solve(1000)
    print(answer.steps, answer.verdict, forkhemit.literals(tables.n, answer.model))

Every function of include/forkhemit.h is here under its own name, without `forkhemit_`, and returns what it writes. A function that takes
tables is a method of Tables; one that takes only a run is a method of Run. A refused call raises Refused, with the number and its sentence.
The header says what each function does. The texts here say what it takes and returns in Python.

`make install` puts this file into PREFIX/share/forkhemit/python: set PYTHONPATH to that folder. The module looks for the shared library where
FORKHEMIT_LIBRARY says, then in target/shared of a source tree, then in lib next to share, and last where the loader looks.
"""

import ctypes
import operator
import os
from collections import namedtuple

# The version of the library that the functions below are written for, as the header numbers it. Later ones with the same first number fit.
VERSION = 10000

TEXT_BYTES = 65536
TABLE_WORDS = 256
LINE_BYTES = 128
ANSWER_BYTES = 256
RUN_WORDS = 101
INDEX_WORDS = 384

OPEN, SATISFIED, REFUTED = range(3)
UNKNOWN, SATISFIABLE, UNSATISFIABLE = range(3)
EXISTENTIAL, UNIVERSAL = 1, 2
LEFT, RIGHT = 0, 1
NO_RULE, ALL_SATISFIED, CONFLICT_WITH_LEVEL, CONFLICT_WITHOUT_LEVEL, FORCED, CHOSEN = range(6)

# The header's FORKHEMIT_REFUSALS.
REFUSALS = {
    1: "the number of variables is not 1 to 32",
    2: "a station's row count is not 1 to 128, or the public one is above 128",
    3: "a row has a variable above n",
    4: "a buffer is too short for its rows",
    5: "a text is malformed, longer than 65,536 bytes or cannot be read",
    6: "the texts do not have the same number of variables",
    7: "the gate buffer is too short for the circuit",
    8: "a number is not digits alone, up to 18446744073709551615, or its line is malformed",
    9: "the words are no gates of a circuit",
    10: "a buffer of wires or counts is too short, or an input byte is not 0 or 1",
    11: "a line or a clause is longer than the lent bytes",
    12: "the run is not well-formed, or the index or the number of unsatisfied rows is not that of tables and run",
    13: "the run was made for another number of variables",
    14: "a run that is open or refuted has no model",
    15: "the row is no padding row of that station",
    16: "the run is closed, and no row can be replaced",
    17: "the row is neither station's, or a text is not the one that its table was read from",
    18: "the proof is malformed or too long, or has more than 256 additions",
    19: "an addition of the proof does not follow",
    20: "the proof does not add the empty clause",
    21: "a game has at most 12 variables",
    22: "a variable stands on the lines of a game's text twice, or is not 1 to n",
    23: "the budget of a run through the whole of it is above 65,535",
    24: "the planes have a bit beyond the rows or beyond n",
    25: "pilots times watches is not the number of variables",
    26: "the page is shorter than 80 bytes a pilot",
    27: "the bytes are no watch page",
}

# What each function takes: n a number of 64 bits, w a word of 32, b a byte; x[4] an array of four of them, x[] a buffer and its length.
_SIZES = "n n n n"
_TABLES = _SIZES + " w[] w[] w[]"
_RUN = " w[101]"
PARAMETERS = {
    "version": "",
    "sizes": _SIZES + " n[4]",
    "read_tables": "b[] b[] b[] w[] w[] w[] n[4]",
    "accept": _TABLES,
    "judge": "w w w w n[4]",
    "fresh": "n" + _RUN,
    "step": _TABLES + _RUN,
    "solve": _TABLES + " n n[3]",
    "model": "w[101] n[1]",
    "count_free": _TABLES + _RUN + " b[]",
    "index": _TABLES + " n[384]",
    "unsatisfied": _TABLES + _RUN + " n[1]",
    "step_indexed": _TABLES + " n[384]" + _RUN + " n[1]",
    "solve_indexed": _TABLES + " n n[3]",
    "continue": _TABLES + " n" + _RUN + " n[2]",
    "step_weighted": _TABLES + _RUN,
    "solve_weighted": _TABLES + " n n[3]",
    "continue_weighted": _TABLES + " n" + _RUN + " n[2]",
    "replace": _TABLES + _RUN + " n n w w",
    "replace_indexed": _TABLES + _RUN + " n n w w n[384] n[1]",
    "step_explained": _TABLES + _RUN + " n[4]",
    "clause": _TABLES + " b[] b[] n n[3]",
    "excerpt": _TABLES + " b[] b[] n b[] n[1]",
    "check_proof": _TABLES + " b[]",
    "game": "b[] n[3]",
    "generate": _SIZES + " w[] n[1]",
    "pack": _TABLES + _RUN + " b[]",
    "evaluate": "w[] b[] b[]",
    "read_back": "n b[]" + _RUN,
    "repeat": _TABLES + " n w[] b[] b[]" + _RUN + " n[2]",
    "solve_whole": _TABLES + " n w[] b[] b[] n[3]",
    "write_line": _SIZES + " w[] n b[] n[1]",
    "write_lines": _SIZES + " w[] n b[] n[2]",
    "read_budget": "b[] n[1]",
    "answer": _SIZES + " b[256] n[1]",
    "columns": "n n w[] w[]",
    "rows": "n n w[] w[]",
    "page": "w[101] n n b[]",
    "read_page": "n n n b[] n[1]",
}
_ELEMENTS = {"n": ctypes.c_uint64, "w": ctypes.c_uint32, "b": ctypes.c_uint8}

Sizes = namedtuple("Sizes", "ceiling gate_words inputs state_wires")
Answer = namedtuple("Answer", "steps verdict model")
Judged = namedtuple("Judged", "satisfied free variables variable")
Continued = namedtuple("Continued", "steps closed")
Repeated = namedtuple("Repeated", "repeats mark")
Explanation = namedtuple("Explanation", "rule row variable value")
Place = namedtuple("Place", "station start length")
Game = namedtuple("Game", "winner variable value")


class Refused(Exception):
    """A refused call: number, and the sentence that says why."""

    def __init__(self, number):
        self.number = number
        self.sentence = REFUSALS.get(number, "an unknown refusal")
        super().__init__(f"refused {number}: {self.sentence}")


def _load():
    """The shared library's functions by name. The library must be of this module's version, or a later one with the same first number."""
    here = os.path.dirname(os.path.abspath(__file__))
    soname = f"libforkhemit.so.{VERSION // 10000}"
    places = [os.path.join(here, "..", "target", "shared", "libforkhemit.so"), os.path.join(here, "..", "..", "..", "lib", soname)]
    named = os.environ.get("FORKHEMIT_LIBRARY")
    library = ctypes.CDLL(named or next(filter(os.path.exists, places), soname))
    functions = {}
    for name, parameters in PARAMETERS.items():
        types = []
        for kind in parameters.split():
            types += [ctypes.c_void_p, ctypes.c_size_t] if kind.endswith("[]") else [ctypes.c_void_p] if "[" in kind else [_ELEMENTS[kind]]
        functions[name] = library["forkhemit_" + name]
        functions[name].argtypes = types
        functions[name].restype = ctypes.c_uint64 if name == "version" else ctypes.c_uint8
    found = functions["version"]()
    if found // 10000 != VERSION // 10000 or found // 100 < VERSION // 100:
        raise ImportError(f"the library's version is {found}, and this module is for {VERSION}")
    return functions


def _array(kind, count, values=()):
    """Memory to lend: so many elements, the first of them set. It has at least one element, so that its address is not null."""
    return (_ELEMENTS[kind] * max(count, 1))(*(_number(value, _ELEMENTS[kind]) for value in values))


def _bytes(data):
    """A text to lend, and its length."""
    memory = (ctypes.c_uint8 * max(len(data), 1))()
    ctypes.memmove(memory, bytes(data), len(data))
    return memory, len(data)


def _number(value, element):
    """A whole number that fits, so that none is cut off on its way into the library."""
    value = operator.index(value)
    if not 0 <= value < 1 << 8 * ctypes.sizeof(element):
        raise OverflowError(f"{value} is no number of {8 * ctypes.sizeof(element)} bits")
    return value


def call(name, *arguments):
    """Calls a function of the header with what PARAMETERS says, and raises Refused where the call is refused. A buffer is memory of the right
    elements, or (memory, length) where only a part of it is lent."""
    kinds, given = PARAMETERS[name].split(), []
    if len(arguments) != len(kinds):
        raise TypeError(f"{name} takes {len(kinds)} arguments, not {len(arguments)}")
    for kind, argument in zip(kinds, arguments):
        element, length = _ELEMENTS[kind[0]], kind[2:-1]
        if kind == kind[0]:
            given.append(_number(argument, element))
            continue
        memory, count = argument if isinstance(argument, tuple) else (argument, len(argument))
        if not isinstance(memory, ctypes.Array) or memory._type_ is not element or len(memory) < int(length or count):
            raise TypeError(f"{name} takes memory for {kind}")
        given += [ctypes.addressof(memory)] + ([] if length else [count])
    number = _FUNCTIONS[name](*given)
    if number != 0 and name != "version":
        raise Refused(number)
    return number


def words(literals):
    """The two words of a clause, positive and negative, from its literals."""
    row = [0, 0]
    for literal in literals:
        if not 1 <= abs(literal) <= 32:
            raise ValueError(f"{literal} is no literal")
        row[literal < 0] |= 1 << (abs(literal) - 1)
    return tuple(row)


def literals(n, model):
    """A model's literals, with a minus where the variable is false."""
    return [i if model >> (i - 1) & 1 else -i for i in range(1, n + 1)]


def text_of(path):
    """A file's bytes, at most one more than a text may have. A file that cannot be read counts as too long, which is refused with 5."""
    try:
        with open(path, "rb") as file:
            return file.read(TEXT_BYTES + 1)
    except OSError:
        return bytes(TEXT_BYTES + 1)


class Run:
    """A run: its 101 words, which steps change in place. It is made fresh for n variables, or from words that were kept."""

    def __init__(self, n, kept=None):
        if kept is not None and len(kept) != RUN_WORDS:
            raise ValueError(f"a run has {RUN_WORDS} words")
        self.words = _array("w", RUN_WORDS, [] if kept is None else kept)
        if kept is None:
            call("fresh", n, self.words)

    def __eq__(self, other):
        return isinstance(other, Run) and self.words[:] == other.words[:]

    def copy(self):
        """The same run, to go on by itself."""
        return Run(self.n, self.words)

    n = property(lambda self: self.words[0])
    standing = property(lambda self: self.words[1])
    true = property(lambda self: self.words[2])
    false = property(lambda self: self.words[3])
    depth = property(lambda self: self.words[4])

    def model(self):
        """The variables that a satisfied run makes true, as a word."""
        model = _array("n", 1)
        call("model", self.words, model)
        return model[0]

    def page(self, pilots, watches):
        """The watch page of a satisfied run, as bytes: a line a pilot."""
        # No page has more lines than a run has variables: with more pilots the product is not n, whatever is lent.
        page = _array("b", 80 * min(_number(pilots, ctypes.c_uint64), 33))
        call("page", self.words, pilots, watches, page)
        return bytes(page)


class Circuit:
    """The giant step's circuit for tables of this size: its gates, three words each."""

    def __init__(self, n, left_rows, right_rows, public_rows):
        self.dimensions = (n, left_rows, right_rows, public_rows)
        self.sizes = sizes(*self.dimensions)
        memory, count = _array("w", self.sizes.gate_words), _array("n", 1)
        call("generate", *self.dimensions, memory, count)
        self.gates, self.count = (memory, 3 * count[0]), count[0]

    def evaluate(self, inputs):
        """All wires, as bytes: the inputs, then each gate's value."""
        return evaluate(self.gates, inputs)

    def next(self, wires):
        """The bytes of the next state, and the mark, from all wires."""
        return wires[-self.sizes.state_wires - 1 : -1], wires[-1]

    def line(self, number):
        """The line of this number, from 0, of the circuit text; empty past the last."""
        line, length = _array("b", LINE_BYTES), _array("n", 1)
        call("write_line", *self.dimensions, self.gates, number, line, length)
        return bytes(line[: length[0]])

    def text(self, room=1 << 20):
        """The circuit text, in parts of whole lines that fit into so many bytes."""
        part, written, line = _array("b", room), _array("n", 2), 0
        while True:
            call("write_lines", *self.dimensions, self.gates, line, part, written)
            if written[0] == 0:
                return
            line += written[0]
            yield bytes(part[: written[1]])


class Tables:
    """Both stations' tables and the public one: lists of rows. A row is its two words, positive and negative."""

    def __init__(self, n, left, right, public=()):
        self.n, self.left_rows, self.right_rows, self.public_rows = n, len(left), len(right), len(public)
        self.left, self.right, self.public = (
            _array("w", max(TABLE_WORDS, 2 * len(rows)), [word for row in rows for word in row])
            for rows in (left, right, public)
        )

    @classmethod
    def of_clauses(cls, n, left, right, public=()):
        """Tables made of clauses, each a list of literals."""
        return cls(n, *([words(clause) for clause in table] for table in (left, right, public)))

    @classmethod
    def of_texts(cls, left, right, public):
        """Tables of three DIMACS texts, as bytes: read_tables."""
        tables, found = cls(0, [], []), _array("n", 4)
        call("read_tables", _bytes(left), _bytes(right), _bytes(public), tables.left, tables.right, tables.public, found)
        tables.n, tables.left_rows, tables.right_rows, tables.public_rows = found
        return tables

    @classmethod
    def of_files(cls, left, right, public):
        """Tables of three files, by their paths."""
        return cls.of_texts(*map(text_of, (left, right, public)))

    dimensions = property(lambda self: (self.n, self.left_rows, self.right_rows, self.public_rows))
    _lent = property(lambda self: self.dimensions + (self.left, self.right, self.public))

    def rows(self):
        """All rows, left ones, right ones, public ones."""
        return [
            tuple(table[2 * row : 2 * row + 2])
            for table, count in zip((self.left, self.right, self.public), self.dimensions[1:])
            for row in range(count)
        ]

    def sizes(self):
        """How long gates, inputs and state of the circuit are."""
        return sizes(*self.dimensions)

    def circuit(self):
        """The giant step's circuit for tables of this size: generate."""
        return Circuit(*self.dimensions)

    def accept(self):
        """Raises Refused unless the tables are accepted."""
        call("accept", *self._lent)

    def fresh(self):
        """The run to start from."""
        return Run(self.n)

    def step(self, run):
        """One giant step, in place."""
        call("step", *self._lent, run.words)

    def step_weighted(self, run):
        """One step with the weighted choice, in place."""
        call("step_weighted", *self._lent, run.words)

    def explain(self, run):
        """One giant step, in place, and its rule: step_explained."""
        explanation = _array("n", 4)
        call("step_explained", *self._lent, run.words, explanation)
        return Explanation(*explanation)

    step_explained = explain

    def _solved(self, name, budget, *scratch):
        answer = _array("n", 3)
        call(name, *self._lent, budget, *scratch, answer)
        return Answer(*answer)

    def solve(self, budget):
        """Steps, verdict and model of a fresh run that reads all rows in each step."""
        return self._solved("solve", budget)

    def solve_indexed(self, budget):
        """The same with an index, which is faster."""
        return self._solved("solve_indexed", budget)

    def solve_weighted(self, budget):
        """The answer of the run with the weighted choice."""
        return self._solved("solve_weighted", budget)

    def solve_whole(self, budget):
        """The answer of the circuit repeated through the whole budget, up to 65,535."""
        return self._solved("solve_whole", budget, *self._scratch())

    def _continued(self, name, run, times):
        continued = _array("n", 2)
        call(name, *self._lent, times, run.words, continued)
        return Continued(*continued)

    def continue_(self, run, times):
        """The run goes on, in place, by at most so many giant steps: steps taken, whether it is closed."""
        return self._continued("continue", run, times)

    def continue_weighted(self, run, times):
        """The run goes on, in place, by at most so many weighted steps."""
        return self._continued("continue_weighted", run, times)

    def index(self):
        """The index of the tables, which step_indexed and replace_indexed take."""
        index = _array("n", INDEX_WORDS)
        call("index", *self._lent, index)
        return index

    def unsatisfied(self, run):
        """How many rows are unsatisfied under the run."""
        number = _array("n", 1)
        call("unsatisfied", *self._lent, run.words, number)
        return number[0]

    def step_indexed(self, run, index, number):
        """One giant step, in place, with index and number: the number after it."""
        after = _array("n", 1, [number])
        call("step_indexed", *self._lent, index, run.words, after)
        return after[0]

    def count_free(self, run):
        """How many literals of each row are free under the run, as bytes."""
        counts = _array("b", sum(self.dimensions[1:]))
        call("count_free", *self._lent, run.words, counts)
        return bytes(counts)

    def replace(self, run, station, row, clause):
        """Puts a clause, a list of literals, in the place of a station's padding row, counted from 1 over all tables."""
        call("replace", *self._lent, run.words, station, row, *words(clause))

    def replace_indexed(self, run, station, row, clause, index, number):
        """The same with an index, which is changed in place, and a number: the number after it."""
        after = _array("n", 1, [number])
        call("replace_indexed", *self._lent, run.words, station, row, *words(clause), index, after)
        return after[0]

    def clause(self, left_text, right_text, row):
        """Where the clause of a row is in its station's text."""
        place = _array("n", 3)
        call("clause", *self._lent, _bytes(left_text), _bytes(right_text), row, place)
        return Place(*place)

    def excerpt(self, left_text, right_text, row):
        """The clause itself, as it was typed; empty where the row was replaced."""
        clause, length = _array("b", TEXT_BYTES), _array("n", 1)
        call("excerpt", *self._lent, _bytes(left_text), _bytes(right_text), row, clause, length)
        return bytes(clause[: length[0]])

    def check_proof(self, text):
        """Raises Refused unless a DRAT text, as bytes, proves that no assignment makes all rows true."""
        call("check_proof", *self._lent, _bytes(text))

    def pack(self, run):
        """The circuit's inputs, a byte a wire: left rows, right rows, public rows and run."""
        inputs = _array("b", self.sizes().inputs)
        call("pack", *self._lent, run.words, inputs)
        return bytes(inputs)

    def _scratch(self):
        ceiling, gate_words, inputs, _ = self.sizes()
        return _array("w", gate_words), _array("b", inputs), _array("b", inputs + ceiling)

    def repeat(self, run, times):
        """The circuit repeated on the run, in place, at most so many times: repeats, the last mark."""
        repeated = _array("n", 2)
        call("repeat", *self._lent, times, *self._scratch(), run.words, repeated)
        return Repeated(*repeated)


def version():
    """The library's version, as one number."""
    return call("version")


def sizes(n, left_rows, right_rows, public_rows):
    """How long gates, inputs and state of a circuit for tables of this size are."""
    found = _array("n", 4)
    call("sizes", n, left_rows, right_rows, public_rows, found)
    return Sizes(*found)


def judge(positive, negative, true, false):
    """What T and F make of a row's two words."""
    judged = _array("n", 4)
    call("judge", positive, negative, true, false, judged)
    return Judged(*judged)


def game(text):
    """Who can force the roster of a QDIMACS text, as bytes."""
    answer = _array("n", 3)
    call("game", _bytes(text), answer)
    return Game(*answer)


def evaluate(gates, inputs):
    """All wires, as bytes. gates is memory and its length in words, inputs has a byte a wire."""
    memory, length = gates
    wires = _array("b", len(inputs) + length // 3)
    call("evaluate", gates, _bytes(inputs), wires)
    return bytes(wires[: len(inputs) + length // 3])


def read_back(n, state):
    """The run that the front of these bytes holds, a byte a wire."""
    run = Run(n)
    call("read_back", n, _bytes(state), run.words)
    return run


def read_budget(line):
    """The number of a budget line, as bytes with its LF."""
    budget = _array("n", 1)
    call("read_budget", _bytes(line), budget)
    return budget[0]


def answer(n, steps, verdict, model):
    """The answer as the pair program prints it, as bytes."""
    text, length = _array("b", ANSWER_BYTES), _array("n", 1)
    call("answer", n, steps, verdict, model, text, length)
    return bytes(text[: length[0]])


def columns(n, table):
    """A table, a list of rows, in squares of 32 rows by 32 variables: 64 words a square. A word holds a variable over 32 rows."""
    count = 64 * ((len(table) + 31) // 32)
    planes = _array("w", count)
    lent = _array("w", 2 * len(table), [word for row in table for word in row])
    call("columns", n, len(table), (lent, 2 * len(table)), (planes, count))
    return planes[:count]


def rows(n, count, planes):
    """So many rows, from such squares as a list of words: the inverse of columns."""
    # No table has more than 128 rows: with more the count is refused, whatever is lent.
    table = _array("w", 2 * min(_number(count, ctypes.c_uint64), 129))
    call("rows", n, count, (_array("w", len(planes), planes), len(planes)), table)
    return [tuple(table[2 * row : 2 * row + 2]) for row in range(count)]


def read_page(n, pilots, watches, page):
    """The model that a watch page, as bytes, shows."""
    model = _array("n", 1)
    call("read_page", n, pilots, watches, _bytes(page), model)
    return model[0]


_FUNCTIONS = _load()
