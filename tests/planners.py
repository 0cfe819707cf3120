#!/usr/bin/env python3
"""Tests of what planners use: tools/forkhemit-plan beside the pair program, brute force and another solver; the desk tool on hostile texts.
Use: tests/planners.py, at the top of the repository, after `make target/static/pair target/shared/libforkhemit.so target/examples/desk`.
The last line is `N passed, M failed`, and the status 0 where M is 0."""

import contextlib
import importlib.machinery
import importlib.util
import io
import itertools
import os
import random
import re
import shutil
import subprocess
import sys
import tempfile

sys.dont_write_bytecode = True
TOP = os.path.dirname(os.path.dirname(os.path.abspath(__file__)))
TOOL, PAIR, DESK = (os.path.join(TOP, *path.split("/")) for path in ("tools/forkhemit-plan", "target/static/pair", "target/examples/desk"))
LIBRARY = os.path.join(TOP, "target", "shared", "libforkhemit.so")
HARBOUR = os.path.join(TOP, "examples", "harbour")
NAMES = ("left.cnf", "right.cnf", "public.cnf")
FINE = (b"p cnf 3 1\n1 2 0\n", b"p cnf 3 1\n-1 3 0\n", b"p cnf 3 0\n")
NO_ROSTER = "no roster; `forkhemit-plan blame` names clauses that admit none"
SEED = 1965


def loaded():
    """The tool as a module."""
    loader = importlib.machinery.SourceFileLoader("plan", TOOL)
    module = importlib.util.module_from_spec(importlib.util.spec_from_loader("plan", loader))
    loader.exec_module(module)
    return module


plan = loaded()
forkhemit = plan.library(LIBRARY) if os.path.exists(LIBRARY) else None


class Tally:
    """How many tests passed and failed; the first failures are shown."""

    passed = failed = 0

    @classmethod
    def test(cls, what, holds, detail=""):
        """Counts a test."""
        if holds:
            cls.passed += 1
            return
        cls.failed += 1
        if cls.failed <= 20:
            print(f"FAILED: {what}: {detail}")

    @classmethod
    def same(cls, what, found, expected):
        """Counts a test that something is as expected."""
        cls.test(what, found == expected, f"found {found!r}, expected {expected!r}")


class Folder:
    """A folder of its own with three files."""

    def __init__(self, texts=FINE):
        self.path = tempfile.mkdtemp(prefix="forkhemit-test-")
        self.put(texts)

    def __enter__(self):
        return self

    def __exit__(self, *_):
        shutil.rmtree(self.path)

    def put(self, texts):
        """Writes the three files; None leaves one out."""
        for name, text in zip(NAMES, texts):
            path = os.path.join(self.path, name)
            if text is None:
                if os.path.exists(path):
                    os.unlink(path)
                continue
            with open(path, "wb") as file:
                file.write(text)

    def contents(self):
        """All files of the folder with their bytes."""
        found = {}
        for name in filter(lambda name: os.path.isfile(os.path.join(self.path, name)), os.listdir(self.path)):
            with open(os.path.join(self.path, name), "rb") as file:
                found[name] = file.read()
        return found

    def pair(self, budget=b"1000000\n"):
        """What the pair program prints here."""
        return subprocess.run([PAIR], cwd=self.path, input=budget, stdout=subprocess.PIPE, check=True).stdout.decode()

    def plan(self, command, *words):
        """Status, standard output and standard error of a command of the tool here. Only `header --write` may change a file."""
        before = self.contents()
        out, err = io.StringIO(), io.StringIO()
        with contextlib.redirect_stdout(out), contextlib.redirect_stderr(err):
            try:
                status = plan.main([command, "--pair", PAIR, "--library", LIBRARY, "-C", self.path, *map(str, words)])
            except SystemExit as end:
                status = end.code
        if "--write" not in words:
            Tally.test(f"{command} changes no file", self.contents() == before)
        return status, out.getvalue().replace(self.path + "/", ""), err.getvalue().replace(self.path + "/", "")


# ---- tables, brute force, another solver


def rows(randomly, n, least, most):
    """Random clauses."""
    count = randomly.randint(least, most)
    return [random_clause(randomly, n) for _ in range(count)]


def random_clause(randomly, n):
    """A random clause, now and then an empty or a padding one."""
    width = randomly.choice((0, 1, 2, 2, 2, 3, 3, 3)) if randomly.random() < 0.2 else randomly.randint(1, 3)
    return tuple(randomly.choice((-1, 1)) * randomly.randint(1, n) for _ in range(width))


def meets(assignment, clause):
    """Whether an assignment, as a set of literals, meets a clause."""
    return any(value in assignment for value in clause)


def assignments(variables):
    """All assignments of some variables, as sets of literals."""
    for signs in itertools.product((-1, 1), repeat=len(variables)):
        yield frozenset(sign * variable for sign, variable in zip(signs, variables))


def models(n, clauses):
    """All assignments that meet all clauses, by trying every one."""
    return [found for found in assignments(range(1, n + 1)) if all(meets(found, clause) for clause in clauses)]


def texts_of(n, tables):
    """Three tables as texts."""
    return [plan.plain(n, table) for table in tables]


def other_solver(n, clauses):
    """Whether another solver finds clauses satisfiable; None where none is installed."""
    name = next(filter(shutil.which, ("cadical", "picosat")), None)
    if name is None:
        return None
    status = subprocess.run([name], input=plan.plain(n, clauses), stdout=subprocess.DEVNULL, check=False).returncode
    return {10: True, 20: False}[status]


# ---- the reader and the pair program

HEADERS = [
    b"", b"c", b"c\n", b"\n", b" ", b"p", b"p cnf", b"p cnf 1", b"p cnf 1 1 \t\r \r", b"p\tcnf\t1\t1", b"p\rcnf 1 1", b"p cnf 1\r1",
    b"p\x0bcnf 1 1", b"p cnf 1 1\x0b", b"p cnf 1 1\x0c", b"p cnf 1 1\0", b"p cnf 1 1 1", b"p cnf 1 1 c", b" p cnf 1 1", b"\tp cnf 1 1",
    b" c\np cnf 1 1", b"\r\np cnf 1 1", b"\xef\xbb\xbfp cnf 1 1", b"\xef\xbb\xbfc\np cnf 1 1", b"\xff\xfep\0 \0", b"pcnf 1 1",
    b"p CNF 1 1", b"P cnf 1 1", b"cnf 1 1", b"p cnf +1 1", b"p cnf 01 1", b"p cnf 1 01", b"p cnf -0 1", b"p cnf 1 -0", b"p cnf -1 1",
    b"p cnf 1 -1", b"p cnf -1 -1", b"p cnf 0 1", b"p cnf 1 0", b"p cnf 0 0", b"p cnf 33 1", b"p cnf 1 129", b"p cnf 33 129", b"p cnf 1 2",
    b"p cnf 257 1", b"p cnf 4294967297 1", b"p cnf 1 4294967297", b"p cnf 18446744073709551617 1", b"p cnf 1 18446744073709551617",
    b"p cnf -100000000000000000000000000001 1", b"p cnf 33 x", b"p cnf x 33", b"p cnf 33 1 1", b"p cnf - 1", b"c\rp cnf 1 1",
    b"C\np cnf 1 1", b"c\0\xff\np cnf 1 1", b"1 0\np cnf 1 1", b"p cnf 1 1\nc", b"p cnf 1 1\n c\n", b"p cnf 1 0\n0",
    b"p cnf " + b"9" * 5000 + b" 1", b"p cnf 1 " + b"9" * 5000,
]
BODIES = [
    b"", b"\n", b"1 0 2 0", b"1\r0\r2\r0\r", b"1\t0\t2\t0", b"0 0", b"0 0 0", b"1 0 2", b"1 0 2 -", b"1 0", b"1 0 2 0 1", b"1 0 2 0 0",
    b"- 1 0 2 0", b"-0 2 0", b"1 -0 2 0", b"+1 0 2 0", b"01 0 2 0", b"1 00 2 0", b"3 0 2 0", b"-3 0 2 0", b"1\nc 2 0\n0 2 0",
    b"1 0\n c\n2 0", b"1 0 2\nc 0", b"1 0\nc\r2 0", b"1 0\nc\0\xff\n2 0", b"1 0\rc\n2 0", b"1-\nc\n2 0", b"1 0 2 0c\n", b"1 0\nC\n2 0",
    b"1 0 2 0\nc", b"1 c 0 2 0", b"1 0 2 0 c", b"1c 0 2 0", b"1 0 2 0\n%\n0\n", b"1 0 2 0\0", b"1\x0b0 2 0", b"1\x0c0 2 0", b"1\x850 2 0",
    b"1,0 2 0", b"1.0 0 2 0", b"0x1 0 2 0", b"1-1 0 2 0", b"\xe2\x88\x921 0 2 0", b"1\xa00 2 0", b"1 -1 1 -1 0 2 2 2 0",
    b"100000000000000000000000000001 0 2 0", b"4294967297 0 2 0", b"18446744073709551617 0 2 0", b"p cnf 2 2\n1 0 2 0", b"a 1 0\n1 0 2 0",
    b"\xff", b"1 0 2 0 \xff", b"9" * 60000 + b" 0 2 0", b"-" + b"9" * 60000, b"\xd9\xa1 0 2 0", b"1_0 0 2 0",
]
PIECES = [
    b"\r", b"\t", b"\0", b" ", b"\n", b"\x0b", b"\x0c", b"\xff", b"0", b"-", b"+", b"c", b"p", b"%", b"1", b"9", b" 0 ", b" -0 ", b" +1 ",
    b" 007 ", b" 33 ", b" 100000000000000000000000000001 ", b"c note\n", b"\nc note\n", b"\nc\n", b"p cnf 2 2\n", b"\r\n", b" 1 -1 0 ",
    b" 2 0\n", b"\n0\n", b"\nc var 1 Costa early\n", b"18446744073709551616",
]


def listed():
    """Texts thought out, each in the place of one of three."""
    texts = [header + clause for header in HEADERS for clause in (b"\n1 0\n", b"", b"\nx")]
    texts += [header + body for body in BODIES for header in (b"p cnf 2 2\n", b"p cnf 2 0\n")]
    texts += [b"p cnf 1 1\n1 0\nc".ljust(length, b"x") for length in (65535, 65536, 65537, 70000)]
    texts += [b"p cnf 1 1\n1".ljust(length - 1) + b"0" for length in (65536, 65537)]
    texts += [b"p cnf 1 1\n" + b"1 " * count + b"0" for count in (32762, 32763)]
    # long lines of blanks, on which a careless search would take hours
    texts += [start + b" " * 60000 + b"y\np cnf 1 1\n1 0\n" for start in (b"c", b"c var", b"c var 1", b"c var 1 x", b"p cnf 1", b"p cnf 1 1")]
    for text in texts:
        n = 2 if text.startswith(b"p cnf 2") else 1
        fine = (b"p cnf %d 1\n1 0\n" % n, b"p cnf %d 1\n1 0\n" % n, b"p cnf %d 0\n" % n)
        for place in range(3):
            yield fine[:place] + (text,) + fine[place + 1 :]
    yield from itertools.product((None, FINE[0]), (None, FINE[1]), (None, FINE[2], b"p cnf 33 0\n", b"p cnf 2 0\n"))


def spaced(randomly, n, table):
    """A table as a text with any separators and remarks."""

    def some(kinds, least):
        return b"".join(randomly.choices(kinds, k=randomly.randint(least, least + randomly.choice((0, 0, 0, 3)))))

    header = some([b" ", b"\t"], 1).join([b"p", b"cnf", b"%d" % n, b"%d" % len(table)])
    text = some([b"c\n", b"c x 0\n"], 0) + header + some([b" ", b"\r"], 0) + b"\n"
    for value in itertools.chain.from_iterable((*clause, 0) for clause in table):
        text += b"%d" % value + some([b" ", b" ", b"\t", b"\r", b"\n", b"\nc 1 0\n"], 1)
    return text


def struck(randomly, text):
    """A text with one stroke of damage; some do none."""
    at = randomly.randint(0, len(text))
    end = min(at + randomly.randint(1, 4), len(text))
    piece = randomly.choice(PIECES)
    digits = [k for k, byte in enumerate(text) if byte in b"0123456789"] or [at]
    digit = randomly.choice(digits)
    blank = randomly.choice([k for k, byte in enumerate(text) if byte in b" \n"] or [at])
    return randomly.choice((
        text[:blank] + randomly.choice((b" ", b"\t", b"\r", b"\n")) + text[blank:],
        text[:digit] + b"%d" % randomly.randint(0, 9) + text[digit + 1 :],
        text[:digit] + b"%d" % randomly.randint(0, 9) + text[digit + 1 :],
        text[:at] + piece + text[at:],
        text[:at] + piece + text[end:],
        text[:at] + text[end:],
        text[:at],
        text[:end] + text[at:],
        text[:at] + bytes(byte ^ 1 << randomly.randint(0, 7) for byte in text[at : at + 1]) + text[at + 1 :],
    ))


def damaged(number):
    """Three small texts, of which one to three places are damaged."""
    randomly = random.Random(SEED + number)
    n = randomly.randint(1, 6)
    texts = []
    for least in (1, 1, 0):
        table = rows(randomly, n, least, 4)
        texts.append(spaced(randomly, n, table) if randomly.random() < 0.5 else plan.plain(n, table))
    for _ in range(randomly.choice((1, 1, 1, 2, 3))):
        place = randomly.randrange(3)
        texts[place] = struck(randomly, texts[place])
    return texts


def refused(printed):
    """The number of a refusal that was printed, or 0."""
    return int(printed.split()[2]) if printed.startswith("c refused") else 0


def clause_lines(texts):
    """The lines of the first and the last byte of each station's clause, by the library's own places in the texts."""
    tables, found = forkhemit.Tables.of_texts(*texts), [[], []]
    for row in range(1, tables.left_rows + tables.right_rows + 1):
        station, start, length = tables.clause(*texts[:2], row)
        before = texts[station][: start + length - 1]
        found[station].append((before[:start].count(b"\n") + 1, before.count(b"\n") + 1))
    return found


def compare_reader(what, texts, folder):
    """The tool's reader takes and refuses as the pair program does, with the same number; what it reads gives the same answer, and lines
    are those of the library's places."""
    folder.put(texts)
    printed = folder.pair(b"50\n")
    case = plan.Case(folder.path)
    Tally.same(what, plan.number_of(case.texts), refused(printed))
    faults = list(case.faults())
    Tally.test(what, bool(faults) == bool(refused(printed)), f"faults {faults}")
    Tally.test(what, all(line.isprintable() and len(line) < 250 for line in faults), f"faults {faults}")
    if refused(printed):
        return 0
    Tally.same(what, [[(clause.line, clause.last) for clause in text.clauses] for text in case.texts[:2]], clause_lines(texts))
    folder.put(texts_of(case.n(), case.tables()))
    Tally.same(what, folder.pair(b"50\n"), printed)
    return 1


def reader():
    """Listed and damaged texts."""
    taken, count = 0, 4000
    with Folder() as folder:
        for number, texts in enumerate(listed()):
            compare_reader(f"listed texts {number}", texts, folder)
        for number in range(count):
            taken += compare_reader(f"damaged texts {number}", damaged(number), folder)
    Tally.test("a good part of damaged texts is taken, and of it refused", count // 5 < taken < count - count // 5, taken)


# ---- what `check` says

MISTAKES = [
    ("left.cnf", b"p cnf 3 1\n1 4 0\n", "left.cnf:2: variable 4 is above the header's 3", 5),
    ("left.cnf", b"c var 4 Brandt early\np cnf 3 1\n1 -4 0\n", "left.cnf:3: variable 4 (Brandt early) is above the header's 3", 5),
    ("right.cnf", b"p cnf 3 2\n1 0\n2\n", "right.cnf:3: the clause that begins here is not closed by 0", 5),
    ("left.cnf", b"p cnf 3 1\n1 0\n2 0\n", "left.cnf:1: the header says 1 clause, and the file has 2", 5),
    ("left.cnf", b"c\np cnf 3 2\n1\n2 0\n", "left.cnf:2: the header says 2 clauses, and the file has 1 (is a 0 missing in lines 3 to 4?)", 5),
    ("left.cnf", b"\np cnf 3 1\n1 0\n", "left.cnf:1: a blank line stands above the header; only remarks may", 5),
    ("left.cnf", b"c\n p cnf 3 1\n1 0\n", "left.cnf:2: a blank stands before the `p`, which must be the line's first byte", 5),
    ("left.cnf", b" c x\np cnf 3 1\n1 0\n", "left.cnf:1: a blank stands before the `c`, which must be the line's first byte", 5),
    ("left.cnf", b"p cnf 3 1\n1 0 c Costa\n", "left.cnf:2: a `c` that is not the line's first byte; a remark has a line of its own", 5),
    ("left.cnf", b"p cnf 3 1\n+1 0\n", "left.cnf:2: `+1` is no number (no plus)", 5),
    ("left.cnf", b"p cnf 3 1\n01 0\n", "left.cnf:2: `01` is no number (no leading zeros)", 5),
    ("left.cnf", b"p cnf 3 1\n1 -0\n", "left.cnf:2: `-0` is no number (0 has no minus)", 5),
    ("left.cnf", b"p cnf 3 1\n1,2 0\n", "left.cnf:2: `1,2` is no number (spaces and no commas between numbers)", 5),
    ("left.cnf", b"p cnf 3 1\n\xe2\x88\x921 0\n", "left.cnf:2: `\u22121` is no number (type a plain minus)", 5),
    ("left.cnf", b"p cnf 3 1\n1 0\n%\n0\n", "left.cnf:3: a `%`, with which some published files end; delete it and what follows", 5),
    ("left.cnf", b"p cnf 3 1\n1 \x1b[2Jx 0\n", "left.cnf:2: `\\x1b[2Jx` is no number", 5),
    ("left.cnf", b"p cnf 3 1\np cnf 3 1\n1 0\n", "left.cnf:2: a second header", 5),
    ("left.cnf", b"p cnf 3 1\ne 1 0\n1 0\n", "left.cnf:2: `e` begins a line of a game, which `forkhemit-plan force` reads", 5),
    ("left.cnf", b"\xef\xbb\xbfp cnf 3 1\n1 0\n", "left.cnf:1: the file begins with a byte-order mark; save it as plain text without one", 5),
    ("left.cnf", b"\xff\xfep\0 \0c\0", "left.cnf:1: the file is UTF-16; save it as plain text", 5),
    ("left.cnf", b"c nothing\n", "left.cnf:2: there is no header, `p cnf VARIABLES CLAUSES`", 5),
    ("left.cnf", b"", "left.cnf:1: there is no header, `p cnf VARIABLES CLAUSES`", 5),
    ("left.cnf", b"1 2 0\n", "left.cnf:1: `1 2 0` stands above the header; only remarks may", 5),
    ("left.cnf", b"p cnf 3\n1 2 0\n", "left.cnf:1: `p cnf 3` is no header; it is `p cnf VARIABLES CLAUSES`", 5),
    ("left.cnf", b"p cnf 3 x\n1 2 0\n", "left.cnf:1: `x` in the header is no number", 5),
    ("left.cnf", b"c".ljust(70000), "left.cnf: more than 65536 bytes; remarks count too", 5),
    ("public.cnf", None, "public.cnf: No such file or directory; all three files must be there", 5),
    ("left.cnf", b"p cnf 33 1\n1 0\n", "left.cnf:1: the header says 33 variables; 1 to 32 are taken", 1),
    ("left.cnf", b"p cnf 3 0\n", "left.cnf:1: the header says 0 clauses; 1 to 128 are taken", 2),
    ("public.cnf", b"p cnf 3 129\n", "public.cnf:1: the header says 129 clauses; 0 to 128 are taken", 2),
    ("right.cnf", b"c\np cnf 4 1\n1 0\n", "right.cnf:2: the header says 4 variables, and that of left.cnf says 3", 6),
]


def causes():
    """Each usual mistake by file, line and cause; every other command says the same, on standard error."""
    for name, text, line, number in MISTAKES:
        with Folder([text if name == other else fine for other, fine in zip(NAMES, FINE)]) as folder:
            expected = f"{line}\nthe pair program answers c refused {number}\n"
            Tally.same(f"check of {text!r:.60}", folder.plan("check"), (1, expected, ""))
            for words in (("rosters",), ("blame",), ("page", 3), ("follow",), ("proof", "none")):
                Tally.same(f"{words[0]} of {text!r:.60}", folder.plan(*words), (1, "", expected))
    with Folder((None, *FINE[1:])) as folder:
        os.mkdir(os.path.join(folder.path, "left.cnf"))
        expected = "left.cnf: Is a directory; all three files must be there\nthe pair program answers c refused 5\n"
        Tally.same("check of a folder", folder.plan("check"), (1, expected, ""))
    with Folder((b"p cnf 3 1\n1 9 0 7\n8\n", b"p cnf 3 1\n1 0 x\ny 0\n", b"p cnf 3 1\n" + b"4 " * 30 + b"0\n")) as folder:
        lines = folder.plan("check")[1].split("\n")
        places = [int(line.split(":")[1]) for line in lines if line.startswith("left.cnf")]
        Tally.same("all faults of a file: 9, 7, 8, the clause that is not closed, and the count", places, [2, 2, 3, 2, 1])
        Tally.test("are told up to a number", "public.cnf: and 10 more" in lines and len(lines) == 5 + 2 + 21 + 2, lines)


def fine_files():
    """`check` of files that are taken, with what may not have been meant."""
    with Folder() as folder:
        Tally.same("check", folder.plan("check"), (0, "fine: 3 variables; left.cnf 1 clause, right.cnf 1 clause, public.cnf 0 clauses\n", ""))
        folder.put((b"c var 1 A\nc var 4 D\np cnf 3 2\n0\n1 0\n", b"c var 1 B\n" + FINE[1], FINE[2]))
        notes = """note: left.cnf:4: a clause without literals is never met
note: left.cnf: a name for variable 4, and there are 3
note: right.cnf: variable 1 is B here, and A in an earlier file
"""
        Tally.same("notes", folder.plan("check")[1].split("\n", 1)[1], notes)


# ---- `header`


def headers():
    """The header is counted, said by default and written when asked, and nothing else of the file changes."""
    left = b"c 5\r\np\tcnf 3  7 \r\n1 2 0\r\nc 0\r\n3 0 -1\n0"
    with Folder((left, *FINE[1:])) as folder:
        others = "right.cnf:1: `p cnf 3 1` is right\npublic.cnf:1: `p cnf 3 0` is right\n"
        said = (1, "left.cnf:2: `p\\tcnf 3  7 \\r` would be (--write) `p\\tcnf 3  3 \\r`\n" + others, "")
        Tally.same("header", folder.plan("header"), said)
        os.chmod(os.path.join(folder.path, "left.cnf"), 0o640)
        Tally.same("header --write", folder.plan("header", "--write"), (0, said[1].replace("would be (--write)", "is now"), ""))
        Tally.same("the number alone", folder.contents(), dict(zip(NAMES, (left.replace(b"  7", b"  3"), *FINE[1:]))))
        Tally.same("the file's mode", os.stat(os.path.join(folder.path, "left.cnf")).st_mode & 0o777, 0o640)
        Tally.same("then it is fine", folder.plan("check")[0], 0)
        os.rename(os.path.join(folder.path, "left.cnf"), os.path.join(folder.path, "kept"))
        os.symlink("kept", os.path.join(folder.path, "left.cnf"))
        folder.put((left, *FINE[1:]))
        Tally.same("a link", folder.plan("header", "--write")[0], 0)
        Tally.test("stays one", os.path.islink(os.path.join(folder.path, "left.cnf")) and folder.contents()["kept"] == left.replace(b"  7", b"  3"))
        for text in (b"p cnf 3\n1 0\n", b"p cnf 3 -4\n1 0\n", b"p cnf 3 01\r\n1 0\n"):
            folder.put((text, *FINE[1:]))
            Tally.same("a count that is missing or malformed", (folder.plan("header", "--write")[0], folder.plan("check")[0]), (0, 0))
        for text, cause in (
            (b"p cnf 3 9\n1 4 0\n", ":2: variable 4 is above the header's 3"),
            (b"p cnf 3 9\n1\n", ":2: the clause that begins here is not closed by 0"),
            (b"p cnf 3 9\n", ":1: 0 clauses; a header may say 1 to 128"),
            (b"p cnf 3 9\n" + b"1 0\n" * 129, ":1: 129 clauses; a header may say 1 to 128"),
            (b"p cnf 33 9\n1 0\n", ":1: the header says 33 variables; 1 to 32 are taken"),
            (None, ": No such file or directory; all three files must be there"),
            (b"p cnf 3 x\n1 0\n", ":1: `x` in the header is no number"),
            (b"", ":1: there is no header, `p cnf VARIABLES CLAUSES`"),
        ):
            folder.put((text, *FINE[1:]))
            before = folder.contents()
            status, out, _ = folder.plan("header", "--write")
            Tally.same(f"header of {text!r:.40}", (status, out.split("\n")[0]), (1, f"left.cnf{cause}; the header is left as it is"))
            Tally.same("and it is", folder.contents(), before)


# ---- `rosters`, `blame`, `page`


def listed_rosters(out):
    """The rosters of a listing, each as the set of what is on."""
    found = re.findall(r"^roster \d+: (.*)$", out, re.MULTILINE)
    return [frozenset() if line == "nothing is on" else frozenset(map(int, line.split(", "))) for line in found]


def all_rosters(number):
    """Random tables: the rosters are those that trying every assignment finds, each once."""
    randomly = random.Random(SEED + number)
    n = randomly.randint(1, 6)
    tables = [rows(randomly, n, least, 5) for least in (1, 1, 0)]
    clauses = [clause for table in tables for clause in table if not plan.padding(clause)]
    asked = sorted({abs(value) for clause in clauses for value in clause})
    expected = {frozenset(v for v in found if v > 0) for found in assignments(asked) if all(meets(found, clause) for clause in clauses)}
    with Folder(texts_of(n, tables)) as folder:
        status, out, err = folder.plan("rosters")
        found = listed_rosters(out)
        Tally.test(f"rosters {number}", (set(found), len(found), err) == (expected, len(expected), ""), out)
        Tally.same(f"rosters {number}, status", status, 0 if expected else 1)
        either = [v for v in range(1, n + 1) if v not in asked]
        told = re.findall(r"for no clause asks: (.*)\n", out)
        Tally.same(f"rosters {number}, what nobody asks", told, [", ".join(map(str, either))] if either and expected else [])
        Tally.same(f"rosters {number}, its end", out.split("\n")[-2], "no more rosters" if expected else NO_ROSTER)
        if len(expected) > 1:
            status, out, _ = folder.plan("rosters", len(expected) - 1)
            told = (status, listed_rosters(out), out.split("\n")[-2])
            Tally.same(f"rosters {number}, one fewer", told, (0, found[:-1], "there may be more rosters"))


def roster_limits():
    """A public table that is full, a budget that is spent, names, and numbers that are none."""
    free = b"p cnf 8 1\n1 2 3 4 5 6 7 8 0\n"
    with Folder((free, free, plan.plain(8, [(1, -1)] * 100))) as folder:
        status, out, _ = folder.plan("rosters")
        Tally.same("28 more clauses have room in the public table, and so 29 rosters", (status, len(set(listed_rosters(out)))), (3, 29))
        Tally.test("it is said", out.endswith("there may be more rosters: the copy of public.cnf is full with 128 clauses\n"), out)
        status, out, _ = folder.plan("rosters", "--budget", 0)
        Tally.same("no step", (status, out), (3, "not known: the budget of 0 steps is spent (--budget allows more)\n"))
        for words in ("0", "x", "-1", "1 2", "--budget abc", f"--budget {2**64}", "--budget -5", "--bud 9"):
            Tally.same(f"rosters {words}", folder.plan("rosters", *words.split())[0], 2)
    left = b"c var 2 Costa \xd8\xa7\xe2\x80\xae\x1b[2J early\r\nc var 1 \np cnf 3 1\n2 0\n"
    with Folder((left, b"c var 1 Ahlgren\np cnf 3 1\n-3 1 0\n", b"c var 3 x\np cnf 3 1\n-1 3 0\n")) as folder:
        costa = "2 Costa \u0627\\u202e\\x1b[2J early"
        Tally.same("names", folder.plan("rosters")[1], f"roster 1: 1 Ahlgren, {costa}, 3 x\nroster 2: {costa}\nno more rosters\n")


def blamed(number):
    """Random tables without a roster: the clauses named have none, and have one without any of them, by brute force, by the pair program
    and by another solver."""
    randomly = random.Random(SEED + number)
    n = randomly.randint(1, 5)
    tables = [rows(randomly, n, least, 7) for least in (1, 1, 0)]
    with Folder(texts_of(n, tables)) as folder:
        status, out, err = folder.plan("blame")
        if models(n, [clause for table in tables for clause in table]):
            Tally.same(f"blame {number}", (status, out, err), (0, "there is a roster; `forkhemit-plan rosters` shows it\n", ""))
            return 0
        places = re.findall(r"^  (\S+\.cnf):(\d+): (.*) 0$|^  (\S+\.cnf):(\d+): 0$", out, re.MULTILINE)
        named = [(a or c, int(b or d), tuple(map(int, literals.split()))) for a, b, literals, c, d in places]
        Tally.same(f"blame {number}, status and lines", (status, len(named), err), (1, out.count("\n") - 1, ""))
        typed = [tables[NAMES.index(name)][line - 2] for name, line, _ in named]
        Tally.same(f"blame {number}, clauses of those lines", [clause for _, _, clause in named], [tuple(dict.fromkeys(clause)) for clause in typed])
        clauses = [clause for _, _, clause in named]
        Tally.same(f"blame {number}, no roster", models(n, clauses), [])
        fewer = [clauses[:k] + clauses[k + 1 :] for k in range(len(clauses))]
        Tally.test(f"blame {number}, none can be left out", all(models(n, part) for part in fewer), out)
        for part, expected in ((clauses, "UNSATISFIABLE"), *((part, "SATISFIABLE") for part in fewer)):
            folder.put(texts_of(n, [part or [(1, -1)], [(1, -1)], []]))
            Tally.same(f"blame {number} by the pair program", folder.pair().split("\n")[1], f"s {expected}")
            if number < 40 and other_solver(n, part) is not None:
                Tally.same(f"blame {number} by another solver", other_solver(n, part), expected == "SATISFIABLE")
    return 1


def blame_budget():
    """A budget that is too small for the verdict, or for some of the questions."""
    tables = [[(3,), (-3,)], [(1, 2), (1, -2), (-1, 2), (-1, -2)], []]
    with Folder(texts_of(3, tables)) as folder:
        Tally.same("no verdict", folder.plan("blame", "--budget", 1), (3, "not known: the budget of 1 step is spent (--budget allows more)\n", ""))
        # two steps refute 3 and -3, and are too few for the other four clauses
        lines = ["  left.cnf:2: 3 0", "  left.cnf:3: -3 0", "some may not be needed: the budget of 2 steps is spent (--budget allows more)", ""]
        status, out, _ = folder.plan("blame", "--budget", 2)
        Tally.same("a verdict, and questions without an answer", (status, out.split("\n")[1:]), (3, lines))
        right = [f"  right.cnf:{line}: {clause} 0" for line, clause in enumerate(("1 2", "1 -2", "-1 2", "-1 -2"), 2)]
        Tally.same("with steps enough another conflict is found", folder.plan("blame")[1].split("\n")[1:], [*right, ""])


def paged(number):
    """The page has 80 bytes a pilot, and the library reads the roster off it."""
    randomly = random.Random(SEED + number)
    pilots, watches = randomly.choice([(p, s) for p in range(1, 33) for s in range(1, 33) if p * s <= 32])
    n = pilots * watches
    tables = [rows(randomly, n, least, 6) for least in (1, 1, 0)]
    with Folder(texts_of(n, tables)) as folder:
        printed = folder.pair().split("\n")
        status, out, err = folder.plan("page", pilots)
        if printed[1] == "s UNSATISFIABLE":
            Tally.same(f"page {number}", (status, out, err), (1, "", NO_ROSTER + "\n"))
            return
        Tally.same(f"page {number}", (status, len(out), err), (0, 80 * pilots, ""))
        on = sum(1 << int(value) - 1 for value in printed[2].split()[1:-1] if int(value) > 0)
        Tally.same(f"page {number} read", forkhemit.read_page(n, pilots, watches, out.encode()), on)
        wrong = next(p for p in range(1, 34) if p > 32 or n % p)
        Tally.same(f"page {number} for {wrong} pilots", folder.plan("page", wrong)[:2], (2, ""))


# ---- proofs and games


def folder_without_roster():
    """A folder with the day of examples/harbour that has no roster, and the bytes of another solver's proof."""
    paths = ("left.cnf", "unsatisfiable/right.cnf", "public.cnf", "unsatisfiable/proof.drat")
    *texts, proof = [plan.file_bytes(os.path.join(HARBOUR, *path.split("/"))) for path in paths]
    return Folder(texts), texts, proof


def number_of(call, text):
    """The number with which the library refuses a text, or 0."""
    found = plan.refusal(forkhemit, call, text)
    return found.number if found else 0


def first_refused(tables, proof, number):
    """The first line up to which a proof is refused with a number, by asking for every line."""
    lines = proof.split(b"\n")
    return next(k for k in range(1, len(lines) + 1) if number_of(tables.check_proof, b"\n".join(lines[:k])) == number)


def proof_damaged(randomly, proof):
    """A proof with some damage."""
    lines = proof.split(b"\n")
    at = randomly.randrange(len(lines))
    return randomly.choice((
        b"\n".join(lines[:at] + lines[at + 1 :]),
        b"\n".join(lines[:at] + [b"%d 0" % randomly.randint(-12, 12)] + lines[at:]),
        b"\n".join(lines[:at] + [randomly.choice((b"13 0", b"1", b"c x", b"\xe2\x88\x921 0", b"d1 0", b"1 0 2 0"))] + lines[at:]),
        struck(randomly, proof),
    ))


def proofs():
    """Another solver's proof is accepted; damaged ones are refused with the library's number, by the first line that is wrong."""
    folder, texts, proof = folder_without_roster()
    tables = forkhemit.Tables.of_texts(*texts)
    with folder, tempfile.NamedTemporaryFile(prefix="forkhemit-test-") as file:

        def asked(data):
            with open(file.name, "wb") as again:
                again.write(data)
            status, out, err = folder.plan("proof", file.name)
            return status, out.replace(file.name, "proof"), err

        Tally.same("cadical's proof", asked(proof), (0, "proof: accepted; no roster meets all 25 clauses\n", ""))
        no_line = "is no line of a proof: variables up to 12, closed by 0, and `d ` in front of a deletion"
        for data, said in (
            (b"", "proof: the proof does not add the empty clause (refused 20)\n"),
            (b"12 0\n0\n", "proof:2: an addition of the proof does not follow (refused 19)\n"),
            (b"12 0\n\n13 0\n", f"proof:3: `13 0` {no_line} (refused 18)\n"),
            (b"12 0\na\x05\x81\0", f"proof:2: `a\\x05\\x81\\x00` {no_line}; is the proof binary? cadical writes text with --no-binary (refused 18)\n"),
            (b"1 -1 0\n" * 257, "proof:257: more than 256 additions (refused 18)\n"),
            (b"\n" * 70000, "proof: more than 65536 bytes (refused 18)\n"),
        ):
            Tally.same(f"proof {data!r:.30}", asked(data), (1, said, ""))
        for number in range(200):
            data = proof_damaged(random.Random(SEED + number), proof)
            refusal = number_of(tables.check_proof, data)
            status, out, err = asked(data)
            found = re.fullmatch(r"proof:(?:(\d+):)? .*\(refused (\d+)\)\n", out)
            line = 0 if refusal in (0, 20) else first_refused(tables, data, refusal)
            told = (int(found[2]), int(found[1] or 0)) if found else (0, 0)
            Tally.same(f"damaged proof {number}", (status, told, err), (1 if refusal else 0, (refusal, line), ""))
        Tally.same("no such proof", folder.plan("proof", "nothing")[:2], (2, ""))


def games():
    """The examples of two stations that take turns, and damaged texts, by the library's numbers."""
    answers = {
        "by-turns": (0, "the e side can force a roster, and begins with 1 Ahlgren early on"),
        "at-once": (1, "the a side can spoil every roster"),
        "going-on": (0, "the e side can force a roster, and begins with 3 Brandt early on"),
    }
    for way, (status, said) in answers.items():
        path = os.path.join(HARBOUR, "turns", f"{way}.qdimacs")
        Tally.same(f"force {way}", run("force", path, folder="/"), (status, f"{path}: {said}\n", ""))
    mistakes = (
        (b"p cnf 13 1\n1 0\n", ":1: 13 variables; a game has at most 12", 21),
        (b"p cnf 2 1\ne 3 0\n1 0\n", ":2: 3 in a turn is no variable from 1 to 2", 22),
        (b"c var 1 Costa\np cnf 2 1\ne 1 0\na 2 1 0\n1 0\n", ":4: variable 1 (Costa) has a turn already", 22),
        (b"p cnf 2 1\ne 1\n1 0\n", ":2: a turn is closed by 0 on its own line", 5),
        (b"p cnf 2 1\na 0\n1 0\n", ":2: a turn without a variable", 5),
        (b"p cnf 2 1\ne1 0\n1 0\n", ":2: no blank follows the `e`", 5),
        (b"p cnf 2 1\ne 01 0\n1 0\n", ":2: `01` in a turn is no variable (no leading zeros)", 5),
        (b"p cnf 2 1\n1 0\ne 2 0\n", ":3: `e` begins a turn, and turns stand before the clauses", 5),
        (b"p cnf 2 1\n1 3 0\n", ":2: variable 3 is above the header's 2", 5),
    )
    with Folder() as folder, tempfile.NamedTemporaryFile(prefix="forkhemit-test-") as file:
        for data, said, number in mistakes:
            with open(file.name, "wb") as again:
                again.write(data)
            expected = f"{file.name}{said}\n{file.name}: {forkhemit.REFUSALS[number]} (refused {number})\n"
            Tally.same(f"force {data!r}", folder.plan("force", file.name), (1, expected, ""))


def damaged_game(number):
    """A small text with turns, damaged in up to three places."""
    randomly = random.Random(SEED + number)
    n = randomly.choice((1, 2, 3, 4, 12, 13))
    header, clauses = plan.plain(n, rows(randomly, n, 1, 4)).split(b"\n", 1)
    order = randomly.sample(range(1, n + 1), randomly.randint(0, n))
    cuts = sorted(randomly.choices(range(len(order) + 1), k=2))
    parts = filter(None, (order[: cuts[0]], order[cuts[0] : cuts[1]], order[cuts[1] :]))
    turns = [b"%s %s 0" % (randomly.choice((b"a", b"e")), b" ".join(b"%d" % v for v in part)) for part in parts]
    text = b"\n".join((header, *(turn + randomly.choice((b"", b"", b" ", b"\r", b"\n", b"\nc a 1 0")) for turn in turns), clauses))
    for _ in range(randomly.choice((0, 1, 1, 1, 2, 3))):
        text = struck(randomly, text)
    return text


def damaged_games():
    """Damaged texts: the reader has the library's number, and the command its answer."""
    taken = 0
    with Folder() as folder, tempfile.NamedTemporaryFile(prefix="forkhemit-test-") as file:
        for number in range(3000):
            data = damaged_game(number)
            refusal = number_of(forkhemit.game, data)
            taken += refusal == 0
            Tally.same(f"game {number}, {data!r}", plan.Game(data).number(), refusal)
            if number >= 200:
                continue
            with open(file.name, "wb") as again:
                again.write(data)
            winner, first, value = (0, 0, 0) if refusal else forkhemit.game(data)
            status, out, err = folder.plan("force", file.name)
            begins = rf", and begins with {first}( .*)? {'on' if value else 'off'}" if first else ""
            said = rf"{file.name}: the {'a side can spoil every' if winner == 2 else 'e side can force a'} roster{begins}\n"
            said = rf"({file.name}:.*\n)+.*\(refused {refusal}\)\n" if refusal else said
            Tally.same(f"force {number}, {data!r}", (status, err), (1 if refusal or winner == 2 else 0, ""))
            Tally.test(f"force {number}, {data!r}", re.fullmatch(said, out), out)
    Tally.test("some damaged games are taken, and others not", 600 < taken < 2400, taken)


# ---- the desk tool


def desk(folder, *words, **more):
    """Status, output and errors of the desk tool."""
    ended = subprocess.run([DESK, *words], cwd=folder.path, stdout=more.get("stdout", subprocess.PIPE), stderr=subprocess.PIPE, check=False)
    return ended.returncode, ended.stdout, ended.stderr


PAYLOADS = {
    b"\x1b[2J\x1b]0;x\x07 y": b"?[2J?]0;x? y",
    b"\xe2\x80\xae\xd8\xa7 x": b"????? x",
    b"\r\x08\x0b\x0c\t x": b"? x",
    b"\x7f\x80\xff\0": b"????",
    b"  13     0  all true\rsatisfiable": b"13 0 all true satisfiable",
    b" " * 5000 + b"end": b"end",
    b"x" * 60000: b"x" * 116 + b"...",
    bytes(set(range(256)) - {10}): b"?" * 9 + b" " + b"?" * 18 + b" " + bytes(range(33, 120)) + b"...",
}


def hostile():
    """A remark inside a clause sends a terminal no control, makes no row and no long line."""
    for payload, shown in PAYLOADS.items():
        with Folder((b"p cnf 3 1\n1\nc %s\n 2 0\n" % payload, b"p cnf 3 2\n-1 0\n3 0\n", FINE[2])) as folder:
            expected = [
                b"step depth  rule      set       row and clause as typed",
                b"   1     0  forced     1 false  row 2    -1 0",
                b"   2     0  forced     2 true   row 1    1 c " + shown + (b"" if shown.endswith(b"...") else b" 2 0"),
                b"   3     0  forced     3 true   row 3    3 0",
                b"   4     0  all true",
                b"satisfiable",
                b"v -1 2 3 0",
                b"",
            ]
            if payload.startswith(b"  13"):
                Tally.test("no row is forged", not any(line.startswith(b"  13") for line in expected))
            Tally.same(f"a remark {payload!r:.40}", desk(folder, *NAMES, "9"), (0, b"\n".join(expected), b""))
            Tally.same(f"followed {payload!r:.40}", folder.plan("follow")[:2], (0, b"\n".join(expected).decode()))


def desk_damaged(number):
    """On damaged texts, many with remarks, only plain bytes are printed, a line a step, and verdict and roster are the pair program's."""
    randomly = random.Random(SEED + number)
    texts = [text.replace(b"\n", b"\nc \x1b[%dm\xe2\x80\xae\n" % number) if randomly.random() < 0.7 else text for text in damaged(number)]
    with Folder(texts) as folder:
        printed = folder.pair(b"30\n").split("\n")
        status, out, err = desk(folder, *(["-w"] if randomly.random() < 0.3 else []), *NAMES, "30")
        lines = out.decode("ascii").split("\n")
        Tally.test(f"desk {number}, plain bytes", all(line == "" or (line.isprintable() and len(line) <= 170) for line in lines), out)
        if printed[0].startswith("c refused"):
            Tally.same(f"desk {number}", (status, lines), (0, printed))
            return
        verdict = {"s SATISFIABLE": "satisfiable", "s UNSATISFIABLE": "unsatisfiable", "s UNKNOWN": "open after the budget"}[printed[1]]
        Tally.test(f"desk {number}, its end", verdict in lines[-3:] and (status, err) == (0, b""), out)
        steps = [line.split()[0] for line in lines[1 : lines.index(verdict)]]
        Tally.same(f"desk {number}, steps", steps, [str(k + 1) for k in range(len(steps))])


def desk_arguments():
    """A bad budget, refused files and output that cannot be written end with a status."""
    with Folder() as folder:
        for budget in ("abc", "-5", "", " 9", "9 ", "+9", "9x", "0x9", str(2**64), "9" * 200, "\u0669"):
            said = f"budget '{budget}': refused 8: a number is not digits alone, up to 18446744073709551615, or its line is malformed\n"
            Tally.same(f"desk with budget {budget!r:.30}", desk(folder, *NAMES, budget), (1, b"", said.encode()))
        for budget in ("0", "009", str(2**64 - 1)):
            Tally.same(f"desk with budget {budget}", desk(folder, *NAMES, budget)[0], 0)
        Tally.same("desk without a budget", desk(folder, *NAMES)[:2], (1, b""))
        said = b"refused 5: a text is malformed, longer than 65,536 bytes or cannot be read\n"
        Tally.same("desk without a file", desk(folder, "nothing", *NAMES[1:], "9"), (0, b"c refused 5\ns UNKNOWN\n", said))
        with open("/dev/full", "wb") as full:
            Tally.same("desk without room", desk(folder, *NAMES, "9", stdout=full), (1, None, b"the output cannot be written\n"))


# ---- the example, as a user runs it

# the rows that the proof of examples/harbour/unsatisfiable needs, as its README says line by line
BLAMED = """these 10 clauses admit no roster; without any one of them this conflict is gone:
  left.cnf:10: 1 7 0  (Ahlgren early or Costa early)
  left.cnf:12: 9 12 0  (Costa night or Duarte night)
  left.cnf:15: 2 5 11 0  (Ahlgren late or Brandt late or Duarte late)
  left.cnf:17: 5 8 11 0  (Brandt late or Costa late or Duarte late)
  right.cnf:10: -9 0  (not Costa night)
  right.cnf:12: -5 2 0  (not Brandt late or Ahlgren late)
  right.cnf:14: -7 -5 0  (not Costa early or not Brandt late)
  public.cnf:18: -1 -2 0  (not Ahlgren early or not Ahlgren late)
  public.cnf:24: -7 -8 0  (not Costa early or not Costa late)
  public.cnf:29: -11 -12 0  (not Duarte late or not Duarte night)
"""
ROSTER = "2 Ahlgren late, 5 Brandt late, 7 Costa early, 12 Duarte night"


def run(*words, folder, **more):
    """A run of the tool as a user would start it."""
    ended = subprocess.run([TOOL, *map(str, words)], cwd=folder, stdout=subprocess.PIPE, stderr=subprocess.PIPE, check=False, **more)
    return ended.returncode, ended.stdout.decode(), ended.stderr.decode()


def harbour():
    """The commands on examples/harbour."""
    fine = "fine: 12 variables; left.cnf 10 clauses, right.cnf 2 clauses, public.cnf 12 clauses\n"
    Tally.same("check", run("check", folder=HARBOUR), (0, fine, ""))
    Tally.same("rosters", run("rosters", folder=HARBOUR), (0, f"roster 1: {ROSTER}\nno more rosters\n", ""))
    page = ("  1 . # .", "  2 . # .", "  3 # . .", "  4 . . #")
    Tally.same("page", run("page", 4, folder=HARBOUR), (0, "".join(line.ljust(79) + "\n" for line in page), ""))
    for words, listing in (((), "listing"), (("-w",), "listing-weighted")):
        with open(os.path.join(TOP, "examples", "desk", listing), encoding="ascii") as file:
            written = file.read()
        status, out, err = run("follow", *words, folder=HARBOUR)
        bare = re.sub(r"  \((not )?[A-Z]\w+ (early|late|night)\)$", "", out, flags=re.MULTILINE)
        Tally.same(f"follow {words}", (status, bare, err), (0, written + f"roster: {ROSTER}\n", ""))
        Tally.test(f"follow {words}, names", f"\n{written.splitlines()[1]}  (not Costa night)\n" in out, out)
    folder, _, _ = folder_without_roster()
    with folder:
        Tally.same("blame", folder.plan("blame"), (1, BLAMED, ""))
        Tally.same("follow without a roster", (folder.plan("follow")[0], folder.plan("follow", "--budget", 3)[0]), (1, 3))
    Tally.same("a folder that is named", run("rosters", "-C", HARBOUR, folder="/")[1], f"roster 1: {ROSTER}\nno more rosters\n")
    status, out, err = run("check", "--pair", "nothing/pair", folder=HARBOUR)
    Tally.test("a pair program that is not there", (status, out) == (2, "") and err.startswith("forkhemit-plan: nothing/pair is not found; "), err)
    Tally.same("a folder that is not there", run("check", "-C", "nothing", folder=HARBOUR)[:2], (2, ""))
    Tally.same("no command", run(folder=HARBOUR)[0], 2)
    Tally.same("another command", run("solve", folder=HARBOUR)[0], 2)
    with open("/dev/full", "wb") as full:
        ended = subprocess.run([TOOL, "rosters"], cwd=HARBOUR, stdout=full, stderr=subprocess.PIPE, check=False)
        Tally.same("output that cannot be written", (ended.returncode, ended.stderr), (2, b"forkhemit-plan: [Errno 28] No space left on device\n"))
    with Folder((b"c var 1 \xc3\x85se\np cnf 1 1\n1 0\n", b"p cnf 1 1\n1 0\n", b"p cnf 1 0\n")) as folder:
        for encoding, name in (("utf-8", "\u00c5se"), ("ascii", "\\xc5se")):
            found = run("rosters", "--pair", PAIR, folder=folder.path, env={**os.environ, "PYTHONIOENCODING": encoding})
            Tally.same(f"a letter in {encoding}", found, (0, f"roster 1: 1 {name}\nno more rosters\n", ""))


def main():
    """Runs all tests."""
    missing = [path for path in (PAIR, DESK, LIBRARY) if not os.path.exists(path)]
    Tally.same("what is tested is there", missing, [])
    if not missing:
        reader()
        causes()
        fine_files()
        headers()
        for number in range(150):
            all_rosters(number)
        roster_limits()
        found = sum(blamed(number) for number in range(150))
        Tally.test("a good part has no roster", found > 50, found)
        blame_budget()
        for number in range(60):
            paged(number)
        proofs()
        games()
        damaged_games()
        hostile()
        for number in range(150):
            desk_damaged(number)
        desk_arguments()
        harbour()
    print(f"{Tally.passed} passed, {Tally.failed} failed")
    return 0 if Tally.failed == 0 else 1


if __name__ == "__main__":
    sys.exit(main())
