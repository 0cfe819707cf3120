#!/usr/bin/env python3
"""Brings the repository's own definitions, laws and record fields to the kit's spelling: snake case for words and laws, and a dash only
between two names of definitions (as count-bit). Run once, after port.py and before anything proves, at the top of the repository.

usage: spell.py [--dry] [--also FILE]   FILE: lines `old<TAB>new` that go before the rule

Names of src/ (functions, fields, variants, types), exported names, strings and files keep their names.
"""
import collections
import glob
import re
import sys

DRY = "--dry" in sys.argv
ALSO = sys.argv[sys.argv.index("--also") + 1] if "--also" in sys.argv else None
TOKEN = re.compile(r"[A-Za-z_₀-₉0-9²′'⁺⁻⊕◌+*≡≤<>∙&|∷≢-]+")
KINDS = r"(?:(?:abbrev|unfoldable|package|pub|data|record|ruleset)\s+)"
DEF = re.compile(rf"^([ ]*)({KINDS}*)([^\s:(){{}}.,;]+)\s+:\s", re.M)
WITH_ARGUMENTS = re.compile(rf"^([ ]*)({KINDS}+)([^\s:(){{}}.,;]+)(?:\s+[({{][^=\n]*?[)}}])+\s+:\s", re.M)
IMPORT = re.compile(r"^\s*(?:pub |ghost )*use ([\w.'+◌-]+?)\.\{([^}]*)\}", re.M)

crates = {l.split(":")[0].split()[0] for l in open("crates.txt") if re.match(r"\w", l)}
antt = sorted(set(glob.glob("crates/*/specs/**/*.antt", recursive=True) + glob.glob("crates/*/proofs/**/*.antt", recursive=True)))
antt = [f for f in antt if "/out/" not in f]
walks = [f for f in antt if re.search(r"/proofs/.+/[^/]*\.antt$", f) and (f.endswith("Proof.antt") or f.endswith("Answers.antt") or f.endswith("Invariants.antt"))]
laws = [f for f in antt if f not in set(walks)]
rust = [f for f in sorted(glob.glob("crates/*/src/**/*.rt", recursive=True)) if "/out/" not in f]
text = {f: open(f, encoding="utf-8").read() for f in antt + rust}

words, facts, fields = set(), set(), set()
for f in laws:
    for m in list(DEF.finditer(text[f])) + list(WITH_ARGUMENTS.finditer(text[f])):
        indent, kinds, name = m.groups()
        if name in ("use", "module", "where"):
            continue
        if re.search(r"abbrev|unfoldable|record|data|package", kinds):
            words.add(name)
        else:
            facts.add(name)
    # fields: the lines of a record's block
    for m in re.finditer(r"^( *)(?:pub )?record [^\n]*where\n((?:\1[ ]+[^\n]*\n|\n|--[^\n]*\n)*)", text[f], re.M):
        for n in re.finditer(r"^\s+(?:pub )?([^\s:(){}.,;]+)\s+:\s", m.group(2), re.M):
            fields.add(n.group(1))
outer = set()
for f in antt + rust:
    for m in IMPORT.finditer(text[f]):
        head = m.group(1).split(".")
        if head[0] != "Rattle" or len(head) < 2 or head[1] not in crates:
            for n in m.group(2).split(","):
                n = n.strip().split(" as ")[0]
                if re.fullmatch(r"[a-z]\w*", n):
                    outer.add(n)
own = words | facts | fields
functions = set()
code_names = set()
for f in rust:
    code = re.sub(r"//[^\n]*", "", text[f])
    functions |= set(re.findall(r"\bfn (\w+)", code))
    code_names |= set(re.findall(r"\b(\w+)\s*:", code)) | set(re.findall(r"\blet (?:mut )?(\w+)", code)) | set(re.findall(r"\b(?:const|static) (\w+)", code))
from_function = {x.replace("_", "-") for x in functions if "_" in x}


def snake(word):
    word = re.sub(r"(?<=[a-z0-9])(?=[A-Z])", "_", word)
    return word.lower() if not word.isupper() or len(word) > 1 else word.lower()


def spelled(name):
    if re.search(r"[◌+*≡≤<>∙&|∷≢⊕]", name):
        return name
    if name[:1].isupper() and "-" not in name:
        return name  # types and facts
    parts = name.split("-")
    if "" in parts:
        return name
    new = snake(parts[0]) if not (parts[0][:1].isupper() and len(parts[0]) > 1) else parts[0]
    for a, b in zip(parts, parts[1:]):
        joins = (a in words or a in outer) and (b in words or b in outer) and not b.isdigit()
        new += ("-" if joins else "_") + (snake(b) if not (b[:1].isupper() and len(b) > 1) else b)
    return new


table = {}
if ALSO:
    for l in open(ALSO):
        if l.strip():
            a, b = l.rstrip("\n").split("\t")
            table[a] = b
for n in own:
    if n not in table and n not in outer:
        s = spelled(n)
        if s != n:
            table[n] = s

used = set()
for f in laws + walks:
    body = re.sub(r"(^|\s)--( |$)[^\n]*", "", text[f])
    body = re.sub(r"^(\s*(?:pub )?use )[\w.'+-]+", r"\1", body, flags=re.M)  # a path of modules is no use of a name
    body = re.sub(r"(?<=[\w)'])\.[\w-]+" if f in set(walks) else r"\btie\.[\w-]+", " ", body)
    used |= set(TOKEN.findall(body.replace(".", " ")))
clash = collections.defaultdict(list)
for a, b in table.items():
    clash[b].append(a)
for b, a in list(clash.items()):
    if len(a) > 1 and sum(x in words for x in a) == 1:
        for x in a:
            if x not in words:
                table[x] = b + "_lem"
clash = collections.defaultdict(list)
for a, b in table.items():
    clash[b].append(a)
bad = {b: a for b, a in clash.items() if len(a) > 1 or (b in used and b not in table) }
hidden = {b: a for b, a in clash.items() if b in code_names and any(x in words for x in a)}
print(f"{len(own)} own names, {len(table)} respelled, {len(bad)} fall together, {len(hidden)} definitions would have the name of a field, local or constant of src/")
for b, a in sorted(bad.items()):
    print("together:", b, "<-", ", ".join(a), "(used)" if b in used else "")
for b, a in sorted(hidden.items()):
    print("in src:", b, "<-", ", ".join(a))
print("ambiguous with a function's step:", sorted(set(table) & from_function))
if DRY:
    sys.exit(0)
for b, a in bad.items():
    for x in a:
        table.pop(x, None)


def turn(body, walk, code):
    def put(m):
        t = m.group(0)
        if t not in table:
            return t
        before = body[m.start() - 1] if m.start() else " "
        if walk and before == "." and (t not in fields or t in from_function):
            return t
        if walk and body[max(0, m.start() - 5):m.start()].endswith("tie."):
            return t
        return table[t]

    return TOKEN.sub(put, body)


def comments(line, mark):
    at = line.find(mark)
    return (line, "") if at < 0 else (line[:at], line[at:])


def in_ticks(comment):
    comment = re.sub(r"`([^`]*)`", lambda m: "`" + TOKEN.sub(lambda t: table.get(t.group(0), t.group(0)), m.group(1)) + "`", comment)
    return re.sub(r"\b[a-z]+[A-Z]\w*", lambda t: table.get(t.group(0), t.group(0)), comment)


for f, t in text.items():
    walk = f in set(walks)
    local = {m.group(3) for m in DEF.finditer(t)} if walk else set()
    kept = {k: table[k] for k in local & set(table)} if walk else {}
    out = []
    depth = 0
    ghost = False
    for line in t.split("\n"):
        if f.endswith(".antt"):
            a, c = comments(line, "--") if re.search(r"(^|\s)--( |$)", line) else (line, "")
            if re.search(r"(^|\s)--( |$)", line):
                at = re.search(r"(^|\s)--( |$)", line).start()
                a, c = line[:at], line[at:]
            out.append(turn(a, walk, False) + in_ticks(c))
        else:
            a, c = comments(line, "//")
            clause = ghost or re.match(r"\s*(pub )?ghost\b", a) or re.match(r"\s*(requires|ensures)\*?\b", a)
            if clause:
                depth += a.count("{") - a.count("}")
                ghost = depth > 0
                a = turn(a, False, True)
            else:
                depth, ghost = 0, False
                a = re.sub(r"\b[a-z]+[A-Z]\w*", lambda t: table.get(t.group(0), t.group(0)), a)
            out.append(a + in_ticks(c))
    new = "\n".join(out)
    if new != t:
        open(f, "w", encoding="utf-8").write(new)
