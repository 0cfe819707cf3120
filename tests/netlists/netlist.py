"""The giant step's circuit, built a second time: wires by name, where the product reckons their addresses from sections, and nothing
shared with it. Writes the gates of the two smallest sizes and a hash of those of all sizes below.  Use: python3 netlist.py"""
import os

SIZES = [(1, 2), (1, 3), (1, 40), (1, 384), (2, 2), (2, 3), (2, 4), (2, 25), (3, 2), (3, 7), (3, 17), (4, 4), (4, 12), (5, 8), (6, 5), (7, 2), (8, 32), (9, 33),
         (16, 64), (17, 65), (20, 91), (31, 383), (32, 2), (32, 3), (32, 256), (32, 383), (32, 384)]
WHOLE = [(1, 2), (2, 3)]


class Circuit:
    def __init__(self, n, m):
        """The inputs: rows of positive and negative wires, T, F, the depth, n levels of T, F and the chosen variable, the standing."""
        self.lines, self.wires = [], 0
        self.p, self.q = zip(*[(self.take(n), self.take(n)) for _ in range(m)])
        self.t, self.f, self.depth = self.take(n), self.take(n), self.take(n + 1)
        self.levels = [[self.take(n) for _ in range(3)] for _ in range(n)]
        self.satisfied, self.refuted = self.take(2)
        self.build(n, m)

    def take(self, count):
        self.wires += count
        return list(range(self.wires - count, self.wires))

    def gate(self, kind, *wires):
        self.lines.append(f"{len(wires)} 1 {' '.join(map(str, wires))} {self.wires} {kind}\n")
        return self.take(1)[0]

    def xor(self, a, b): return self.gate("XOR", a, b)
    def land(self, a, b): return self.gate("AND", a, b)
    def inv(self, a): return self.gate("INV", a)
    def nought(self, wire=0): return self.xor(wire, wire)

    def literals(self, p, q):
        """A row: whether it is satisfied, its free literals, the parity of the positive ones."""
        satisfied, sign, free = self.nought(), self.nought(), []
        for p, q, t, f in zip(p, q, self.t, self.f):
            y = self.land(self.xor(satisfied, p), self.xor(p, f))
            z = self.land(self.xor(satisfied, q), self.xor(q, t))
            a, b = self.xor(f, y), self.xor(t, z)
            free.append(self.xor(y, z))
            satisfied, sign = self.xor(satisfied, self.land(a, b)), self.xor(sign, y)
        return satisfied, sign, free

    def count(self, free):
        """Whether some of the first literals are free, and whether several are: after none, one, two and so on."""
        some, many = [self.nought()], [self.nought()]
        for x in free:
            two = self.land(some[-1], x)
            a, b = self.xor(many[-1], two), self.land(many[-1], two)
            some.append(self.xor(self.xor(some[-1], x), two))
            many.append(self.xor(a, b))
        return some, many

    def rank(self, satisfied, some, many):
        """Satisfied 0, several free literals 1, unit 2, conflict 3: the low digit and the high one."""
        unsatisfied, few = self.inv(satisfied), self.inv(many)
        high = self.land(unsatisfied, few)
        return self.xor(unsatisfied, self.land(high, some)), high

    def parity(self, wires):
        total = self.nought()
        for wire in wires:
            total = self.xor(wire, total)
        return total

    def copy(self, wire): return self.xor(wire, self.nought(wire))

    def chosen(self, left, differs, keep):
        """The digit that a line of the tree keeps."""
        return self.xor(left, self.land(keep, differs))

    def greater(self, so_far, differs, right):
        """Whether the right key is greater, on the digits from the lowest to this one."""
        return self.xor(so_far, self.land(differs, self.xor(right, so_far)))

    # A line of the tree: the left key, where the two differ, and whether the right one is greater. Every line is as long.

    def bye(self, key):
        """The last row by itself: it is kept."""
        keep, left, differs = self.nought(), [], []
        for digit in key:
            left.append(self.copy(digit))
            spare = [self.nought(digit) for _ in range(6)]
            differs.append(spare[2])
            keep = spare[5]
        return left, differs, keep

    def pair(self, key, other):
        """Two rows."""
        keep, left, differs = self.nought(), [], []
        for digit, right in zip(key, other):
            left.append(self.copy(digit))
            self.nought(digit), self.nought(digit)
            differs.append(self.xor(digit, right))
            keep = self.greater(keep, differs[-1], right)
        return left, differs, keep

    def node(self, line, other):
        """What two lines keep."""
        keep, left, differs = self.nought(), [], []
        for a, b, c, d in zip(*line[:2], *other[:2]):
            left.append(self.chosen(a, b, line[2]))
            right = self.chosen(c, d, other[2])
            differs.append(self.xor(left[-1], right))
            keep = self.greater(keep, differs[-1], right)
        return left, differs, keep

    def greatest(self, keys):
        """The greatest key: a queue of lines, from which two are taken and behind which their comparison is put."""
        m = len(keys)
        lines = [self.bye(keys[-1])] + [self.pair(keys[2 * s], keys[2 * s + 1]) for s in range(m // 2)]
        at = 0 if m % 2 else 1
        while len(lines) < m:
            lines.append(self.node(lines[at], lines[at + 1]))
            at += 2
        left, differs, keep = lines[-1]
        return [self.chosen(a, b, keep) for a, b in zip(left, differs)]

    def rule(self, best):
        """What the greatest key says: done, refute, pop, push, whether a variable is set, and whether to false."""
        low, high, sign = best[-2], best[-1], best[0]
        open_ = self.inv(self.xor(self.satisfied, self.refuted))
        hard = self.land(open_, high)
        clash = self.land(hard, low)
        force, rest = self.xor(hard, clash), self.xor(open_, hard)
        push = self.land(rest, low)
        done = self.xor(rest, push)
        refute = self.land(clash, self.depth[0])
        pop, act = self.xor(clash, refute), self.xor(force, push)
        return done, refute, pop, push, act, self.land(force, self.inv(sign))

    def build(self, n, m):
        zero, b = self.nought(), (n - 1).bit_length()
        rows = [self.literals(p, q) for p, q in zip(self.p, self.q)]
        counts = [self.count(free) for _, _, free in rows]
        ranks = [self.rank(row[0], some[n], many[n]) for row, (some, many) in zip(rows, counts)]
        digits = [[self.parity([some[n - (k << d)] for k in range((n - 1) >> d, 0, -1)]) for some, _ in counts] for d in range(b)]
        columns = [[row[1] for row in rows], *digits, [low for low, _ in ranks], [high for _, high in ranks]]
        keys = [[self.xor(wire, zero) for wire in column] for column in columns]
        best = self.greatest(list(zip(*keys)))
        done, refute, pop, push, act, to_false = self.rule(best)
        nodes = [self.xor(act, zero)]
        for d in range(b):
            below = []
            for node in nodes:
                one = self.land(node, best[b - d])
                below += [one, self.xor(node, one)]
            nodes = below
        self.outputs(n, zero, self.sets(nodes[len(nodes) - n:], to_false, push), done, refute, pop, push)

    def sets(self, variables, to_false, push):
        """For each variable: becomes false, is pushed, becomes true."""
        changes = []
        for v in variables:
            false, pushed = self.land(v, to_false), self.land(v, push)
            changes.append((false, pushed, self.xor(v, false)))
        return changes

    def level(self, changes, wires, pushed):
        """A wire of all levels: its changes, and what a pop restores."""
        total, deltas = self.nought(), []
        for change, wire in zip(changes, wires):
            deltas.append(self.land(change, self.xor(wire, pushed)))
            total = self.xor(total, deltas[-1])
        return total, deltas

    def sum(self, first, *others):
        for wire in others:
            first = self.xor(first, wire)
        return first

    def outputs(self, n, zero, sets, done, refute, pop, push):
        held = [[(self.land(wire, pop), self.land(wire, push)) for wire in wires] for wires in (self.t, self.f)]
        changes = [self.nought()]
        for above, here in zip(self.depth[1:], self.depth):
            changes.append(self.land(self.xor(push, above), self.xor(pop, here)))
        self.nought(), self.nought()
        changes.append(self.nought())
        pushed = [[p for _, p in held[0]], [p for _, p in held[1]], [p for _, p, _ in sets]]
        levels = [[self.level(changes[1:n + 1], [level[k][i] for level in self.levels], pushed[k][i]) for i in range(n)] for k in range(3)]
        t = [self.sum(a, l[0], b, s[2], zero, zero) for (a, b), l, s in zip(held[0], levels[0], sets)]
        f = [self.sum(a, l[0], b, v[0], s[1], s[0]) for (a, b), l, v, s in zip(held[1], levels[1], levels[2], sets)]
        depth = [self.xor(a, b) for a, b in zip(changes, changes[1:])]
        for wires, deltas in ((self.t, t), (self.f, f), (self.depth, depth)):
            for wire, delta in zip(wires, deltas):
                self.xor(wire, delta)
        for l in range(n):
            for k in range(3):
                for i in range(n):
                    self.xor(self.levels[l][k][i], levels[k][i][1][l])
        self.xor(self.xor(self.satisfied, done), self.xor(self.refuted, refute))


def fnv(data):
    """FNV-1a, 64 bits."""
    value = 0xcbf29ce484222325
    for byte in data:
        value = (value ^ byte) * 0x100000001b3 & 0xffffffffffffffff
    return value


if __name__ == "__main__":
    here = os.path.dirname(os.path.abspath(__file__))
    with open(os.path.join(here, "hashes.txt"), "w") as hashes:
        hashes.write("# n, m, gates, FNV-1a of the gates' lines, written by netlist.py\n")
        for n, m in SIZES:
            lines = Circuit(n, m).lines
            text = "".join(lines)
            hashes.write(f"{n} {m} {len(lines)} {fnv(text.encode()):016x}\n")
            if (n, m) in WHOLE:
                with open(os.path.join(here, f"{n}-{m}.txt"), "w") as whole:
                    whole.write(text)
