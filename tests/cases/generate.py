"""Random case files, whole and damaged, for tests/cases/compare; g, a random.Random, decides all."""
import collections

from casefile import LIMIT, OTHERS, PARTS
from words import operand_count

EDGE = [0, 1, 2, 3, 4, 5, 6, 7, 8, 9, 15, 16, 17, 20, 21, 31, 32, 33, 254, 255, 256, 257, 511, 512,
        65535, 65536, 2 ** 31 - 1, 2 ** 31, 2 ** 32 - 2, 2 ** 32 - 1]


def fit(g, n):
    """a value of the width (0: Boolean), often one that settles something"""
    if n == 0:
        return g.randrange(2)
    top = 2 ** n - 1
    return g.choice([0, 0, top, top, min(n, top), min(n - 1, top), 1, g.randint(0, top), g.randint(0, min(3, top)),
                     top // 2, top // 2 + 1])


class Table:
    def __init__(self, g, size):
        self.g, self.terms, self.by, self.slots, self.size = g, [], collections.defaultdict(list), {}, []
        widths = g.choice([[8], [1, 2], [8, 3], [32], [32, 1], [1, 2, 8, 31, 32], [g.randint(1, 32), g.randint(1, 32)]])
        self.widths = widths
        self.marked = g.choice([0.1, 0.3, 0.5, 0.9])
        self.spread = g.choice([6, 20, 256])
        self.arrays = g.random() < 0.6
        while len(self.terms) < size - 1:
            self.grow()
        self.rule()

    def put(self, op, s, p=0, q=0, r=0):
        t = len(self.terms)
        self.terms.append((op, s[0], s[1], p, q, r))
        self.by[s].append(t)
        self.size.append(self.size_of(op, s, p, q, r))
        return t

    def size_of(self, op, s, p=0, q=0, r=0):
        beneath = [p] if op == 16 else [q, r] if op == 7 and s[0] else []
        return sum(self.size[x] for x in beneath) + bool(beneath)

    def leaf(self, s):
        g = self.g
        if s[0] == 0 and g.random() < 0.3:
            return self.put(0, s, fit(g, s[1]))
        for _ in range(50):
            slot = g.randrange(self.spread)
            mark = int(g.random() < self.marked)
            if self.slots.setdefault(slot, (s, mark))[0] == s:
                return self.put(1, s, slot, self.slots[slot][1])
        return self.put(0, s, fit(g, s[1])) if s[0] == 0 else None

    def pick(self, s):
        have = self.by[s]
        if not have:
            return None
        return self.g.choice(have[-6:] if self.g.random() < 0.6 else have)

    def vector(self):
        return (0, self.g.choice(self.widths))

    def grow(self):
        g = self.g
        op = g.choice([1, 2, 3, 4, 5, 6, 7, 8, 9, 10, 11, 12, 13, 14, g.choice([17, 18, 19, 20])] +
                      ([15, 16, 16, 15] if self.arrays else []))
        b, w = (0, 0), self.vector()
        if op == 1:
            return self.leaf(g.choice([b, w, w, (g.choice(self.widths), w[1])] if self.arrays else [b, w]))
        if op == 2:
            want, s = [b], b
        elif op in (3, 4, 5):
            want, s = [b, b], b
        elif op == 6:
            o = g.choice([b, w])
            want, s = [o, o], b
        elif op == 7:
            s = g.choice([b, w] + [(g.choice(self.widths), w[1])] * self.arrays)
            want = [b, s, s]
        elif op in (8, 17):
            want, s = [w], w
        elif op in (9, 10, 11, 12, 13, 18, 20):
            want, s = [w, w], w
        elif op in (14, 19):
            want, s = [w, w], b
        else:
            m, n = g.choice(self.widths), g.choice(self.widths)
            want = [(m, n), (0, m)] + ([(0, n)] if op == 16 else [])
            s = (0, n) if op == 15 else (m, n)
        got = [self.pick(o) for o in want]
        for k, o in enumerate(want):
            if got[k] is None or (g.random() < 0.05 and o[0] == 0):
                self.leaf(o)
                return
        if self.size_of(op, s, *got) <= 16:
            self.put(op, s, *got)

    def rule(self):
        g, b, w = self.g, (0, 0), self.vector()
        x, y = self.pick(w), self.pick(w)
        have = [t for t in (self.pick(b), self.pick(b)) if t is not None]
        if x is not None and g.random() < 0.5:
            self.put(g.choice([6, 14, 14, 19]), b, x, y)
        elif len(have) == 2:
            self.put(g.choice([3, 4, 5, 6]), b, *have)
        else:
            self.leaf(b)

    def setting(self):
        g = self.g
        top = max(self.slots, default=-1)
        values = [fit(g, self.slots[s][0][1]) if s in self.slots else g.choice(EDGE) for s in range(top + 1)]
        values += [g.choice(EDGE) for _ in range(g.choice([0, 0, 0, 1, 3]))]
        arrays = [s for s in self.slots if self.slots[s][0][0]]
        cells = []
        for _ in range(g.choice([0, 1, 3, 10]) if arrays else 0):
            s = g.choice(arrays)
            m, n = self.slots[s][0]
            cells += [s, fit(g, m), fit(g, n)]
        steps = sum(self.size[t[3]] for t in self.terms if t[0] == 15)
        allowance = g.choice([steps, steps, steps + g.randrange(5), 4294967295, max(0, steps - 1)])
        return values, cells, allowance

    def sheet(self):
        """A mark sheet that is not refused, or None where the part is left out."""
        g = self.g
        if g.random() < 0.35:
            return None
        lines = []
        for _ in range(g.choice([0, 1, 1, 2, 3, 5, 5, 12])):
            slot = g.choice(sorted(self.slots)) if self.slots and g.random() < 0.8 else g.randrange(256)
            other = g.choice([slot, slot, slot, slot + g.randrange(4), slot - g.randrange(4), 0, 255])
            low, high = max(0, min(slot, other)), min(255, max(slot, other))
            lines.append((g.randrange(2), low, high))
            if g.random() < 0.3:                    # of the other kind, over some of the same slots
                lines.append((1 - lines[-1][0], g.choice([low, 0]), g.choice([high, low, 255])))
        if g.random() < 0.15:                       # leaves the table's marks as they are
            lines = [(mark, slot, slot) for slot, (_, mark) in self.slots.items()]
        g.shuffle(lines)
        return [x for line in lines for x in line]


def spoil_sheet(g, sheet):
    """A faulty line more, among the others or last, and sometimes a second; or the last line cut short."""
    sheet = list(sheet or [])
    for _ in range(g.choice([1, 1, 2])):
        line = g.choice([[2, 3, 9], [g.choice(EDGE[2:]), 0, 0], [1, 9, 3], [0, 1, 0], [1, 300, 2], [0, 0, 256], [1, 255, 4294967295],
                         [0, 256, 256], [2, 9, 3], [7, 300, 2]])
        at = g.choice([0, 3 * g.randrange(len(sheet) // 3 + 1), len(sheet) // 3 * 3])
        if g.random() < 0.6:
            sheet[at:at] = line
        else:
            sheet += [g.randrange(2), 0, 0][:g.choice([1, 2])]
    return sheet


def damage_numbers(g, table, sheet, values, cells, allowance):
    what = g.randrange(12)
    if what < 5:
        for _ in range(g.choice([1, 1, 2])):
            k = g.randrange(len(table))
            table[k] = g.choice([g.choice(EDGE), k // 6, max(0, k // 6 - 1), k // 6 + 1, table[g.randrange(len(table))]])
    elif what == 5:
        k = g.randrange(len(table))
        if g.random() < 0.5:
            del table[k:k + g.choice([1, 6])]
        else:
            table[k:k] = [g.choice(EDGE) for _ in range(g.choice([1, 6]))]
    elif what == 6 and values:
        if g.random() < 0.5:
            del values[g.randrange(len(values)):]
        else:
            values[g.randrange(len(values))] = g.choice(EDGE)
    elif what == 7:
        cells += [g.choice(EDGE) for _ in range(g.choice([1, 2, 3]))]
    elif what == 8 and cells:
        cells[g.randrange(len(cells))] = g.choice(EDGE)
    elif what == 9 and sheet:
        sheet[g.randrange(len(sheet))] = g.choice(EDGE)
    elif what == 10:
        sheet = spoil_sheet(g, sheet)
    else:
        allowance = g.choice([0, 1, allowance // 2])
    return table, sheet, values, cells, allowance


BETWEEN = [" ", "\t", "\n", "\r\n", "\v", "\f", "; odd; 7 table\n", ";\n", ";\r;\n", "  \n\n"]


def text_of(g, case):
    table, sheet, values, cells, allowance = case
    parts = [("table", table, 6), ("values", values, 16), ("cells", cells, 3), ("allowance", [allowance], 1)]
    if sheet is not None:
        parts.insert(1, ("sheet", sheet, 3))
    if g.random() < 0.4:
        g.shuffle(parts)
    style = g.choice(["plain", "plain", "plain", "odd"])
    out = []
    for word, numbers, line in parts:
        out.append(word)
        out.append("\n" if g.random() < 0.7 else " ")
        for k, x in enumerate(numbers):
            out.append(("0" * g.choice([0, 0, 1, 12]) if style == "odd" else "") + str(x))
            if style == "odd":
                out.append(g.choice(BETWEEN))
            else:
                out.append("\n" if k % line == line - 1 else " ")
        out.append(g.choice(["\n", "\n", " ; the end of %s 1 2\n" % word]))
    text = "".join(out).encode()
    if g.random() < 0.2:
        text = text.rstrip()
    return text


WORDS = [b"7", b"table", b"values", b"cells", b"allowance", b"sheet", b"sheets", b"shee", b"mark", b"keep", b"Table", b"tables", b"value", b"x", b"-1", b"+1", b"0x1", b"1a", b"a1",
         b"tablevalues", b"cellscellscells", b"4294967296", b"4294967295", b"99999999999999999999999", b"18446744073709551616",
         b"18446744073709551617", b"0000000000000000000000000000000000000001", b"1.0", b"1,", b"\xff", b"\x00", b"\x0e", b"\x08",
         b"\xc2\xa0", b"\x85", b"allowance0", b"table\x00", b"aaaaaaaaaaaaaaaaaaaaaaaaaaaatable", b"tabl", b"able", b"\xef\xbb\xbf", b"\xef\xbb\xbftable",
         b'"', b"\\", b"an-exceedingly-long-word-of-36-bytes", b"four-and-twenty-bytes-so"]


def damage_text(g, text):
    for _ in range(g.choice([1, 1, 1, 2, 3])):
        what = g.randrange(10)
        k = g.randrange(len(text) + 1)
        if what == 0:
            text = text[:k] + bytes([g.randrange(256)]) + text[k:]
        elif what == 1:
            text = text[:k] + text[k + 1:]
        elif what == 2:
            text = text[:k] + g.choice([b";", b"; ", b";\n", b" ; table\n", b"\n;"]) + text[k:]
        elif what == 3:
            text = text[:k] + g.choice([b" ", b"\n", b"\r", b""]) + g.choice(WORDS) + g.choice([b" ", b"\n", b""]) + text[k:]
        elif what == 4:
            text = text[:k]
        elif what == 5:
            word = g.choice(PARTS)
            text = text.replace(word, g.choice([b"", b";" + word, g.choice(WORDS)]), 1)
        elif what == 6:
            text = text.replace(b"\n", b"\r" if g.random() < 0.3 else b"\r\n")
        elif what == 9:
            text = text.replace(b"allowance ", b"allowance ;", 1)
        elif what == 7:
            text = text + g.choice(WORDS) + g.choice([b"", b"\n"])
        else:
            text = g.choice(WORDS + [b""]) + g.choice([b" ", b"\n", b""]) + text
    return text


def widest(g):
    t = Table(g, 512)
    while len(t.terms) < 512:
        t.put(2, (0, 0), t.pick((0, 0)))
    return t


def stored_again(g, t, arrays, leaves):
    """What the array holds at an index, stored at some other index; read there."""
    s, j = t.terms[arrays[-1]][1:3], g.choice(leaves)
    held = t.put(15, (0, s[1]), arrays[-1], j)
    return t.put(15, (0, s[1]), t.put(16, s, arrays[-1], g.choice(leaves), held), j)


def marks(g):
    """Many marked Booleans under operators."""
    t = Table(g, 1)
    t.spread, t.marked = g.choice([20, 256]), g.choice([0.8, 1])
    top = t.leaf((0, 0))
    for _ in range(g.choice([4, 5, 8, 20, 60])):
        top = t.put(g.choice([3, 4, 5, 6, 6, 6]), (0, 0), top, t.leaf((0, 0)))
    return t


def signed(g):
    """Signed operators and shifts over inputs and constants of one width, the last a comparison."""
    t = Table(g, 1)
    t.spread, t.marked, w = 20, 0.4, (0, g.choice([1, 2, 8, 8, 8, 32]))
    have = [t.leaf(w) for _ in range(3)]
    for _ in range(g.choice([0, 1, 1, 2, 4])):
        op = g.choice([13, 17, 18, 20, 20])
        have.append(t.put(op, w, *(g.choice(have) for _ in range(operand_count(op)))))
    t.put(19, (0, 0), *g.sample(have[-2:] if g.random() < 0.7 else have, 2))
    return t


def chain(g):
    """a long chain of stores, read at several depths"""
    t = Table(g, 1)
    w = g.choice([1, 2, 8, 32])
    t.widths = [w]
    leaves = [t.leaf((0, w)) for _ in range(6)]
    a = t.leaf((w, w))
    while a is None:
        t.spread += 10
        a = t.leaf((w, w))
    arrays, reads = [a], []
    for _ in range(g.choice([1, 2, 3, 5, 15, 16, 17, 18])):
        arrays.append(t.put(16, (w, w), arrays[-1], g.choice(leaves), g.choice(leaves + reads)))
        if g.random() < 0.3:
            reads.append(t.put(15, (0, w), g.choice(arrays), g.choice(leaves + reads)))
        if g.random() < 0.2:
            reads.append(stored_again(g, t, arrays, leaves))
    reads.append(t.put(15, (0, w), arrays[-1], g.choice(leaves)))
    t.put(g.choice([6, 14, 19]), (0, 0), reads[-1], g.choice(leaves + reads))
    return t


def choices(g):
    """Stores and choices of arrays, some too large, read at several places."""
    t = Table(g, 1)
    w, t.spread, limit = g.choice([1, 2, 8, 32]), 20, g.choice([16, 16, 16, 40])
    tests, leaves = [t.leaf((0, 0)) for _ in range(3)], [t.leaf((0, w)) for _ in range(4)]
    arrays = [a for a in (t.leaf((w, w)) for _ in range(3)) if a is not None]
    reads = []
    for _ in range(g.choice([1, 2, 3, 5, 8, 12]) if arrays else 0):
        new, old = g.choice(arrays[-2:]), g.choice(arrays)
        term = (7, (w, w), g.choice(tests), *g.choice([(new, old), (old, new), (new, new)]))
        if g.random() < 0.35:
            term = (16, (w, w), new, g.choice(leaves), g.choice(leaves + reads))
        if t.size_of(*term) <= limit:
            arrays.append(t.put(*term))
        if g.random() < 0.3:
            reads.append(t.put(15, (0, w), g.choice(arrays), g.choice(leaves)))
            tests.append(t.put(g.choice([6, 14]), (0, 0), reads[-1], g.choice(leaves)))
    if arrays:
        leaves.append(t.put(15, (0, w), arrays[-1], g.choice(leaves)))
    t.put(g.choice([6, 14, 19]), (0, 0), leaves[-1], g.choice(leaves + reads))
    return t


def any_sort(g, t):
    w = g.choice(t.widths)
    return g.choice([(0, 0), (0, w), (0, g.choice([1, 8, 32])), (g.choice(t.widths), w), (g.choice(t.widths), w)])


def odd_term(g, t):
    """One more term, of any operator; one of its parts may have another sort than is asked."""
    op = g.choice(list(range(21)) + [0, 0, 6, 6, 6, 6, 7, 7, 7, 7, 7, 14, 15, 15, 16, 16])
    m, n = g.choice(t.widths), g.choice(t.widths)
    v, b = (0, n), (0, 0)
    x, y = g.choice([b, v]), g.choice([b, v, (m, n), (m, n)])
    want = {0: [x], 1: [x], 2: [b, b], 6: [b, x, x], 7: [y, b, y, y], 8: [v, v], 14: [b, v, v], 15: [v, (m, n), (0, m)],
            16: [(m, n), (m, n), (0, m), v], 17: [v, v], 19: [b, v, v]}.get(op, [b, b, b] if op < 6 else [v, v, v])
    if g.random() < 0.9:
        want[g.randrange(len(want))] = any_sort(g, t)
    fields = [t.pick(s) if t.by[s] else t.leaf(s) for s in want[1:]]
    t.put(op, want[0], *(x or 0 for x in fields))


def spoil_term(g, t, table):
    """A change of one term that breaks a rule of the table."""
    three = [x for x, term in enumerate(t.terms) if operand_count(term[0]) == 3]
    k = 6 * g.choice(three if three and g.random() < 0.5 else range(len(t.terms)))
    count, what = operand_count(table[k]), g.choice([0, 1, 2, 2, 3, 3, 4, 4, 4, 5])
    if what == 0:
        table[k] = g.choice([21, 22, 4294967295])
    elif what == 1:
        table[k + 1], table[k + 2] = g.choice([(33, 8), (8, 33), (0, 33), (8, 0), (4294967295, 0)])
    elif what == 2 and count:
        table[k + 3 + g.randrange(count)] = k // 6 + g.choice([0, 1, 1000])
    elif what == 3 and count < 3:
        table[k + 5 if count else k + g.choice([4, 5])] = g.choice([1, 2, 300])
    elif what == 4 and table[k] == 1:
        field, value = g.choice([(3, 256), (3, 4294967295), (4, 2), (4, 7)])
        table[k + field] = value
    else:
        table[k:k + 6] = [0, 0, g.choice([0, 1, 8]), g.choice([2, 256, 4294967295]), 0, 0]


def spoil_variable(g, t, table):
    """One more variable, of a slot that is there, with another sort or mark."""
    slot = g.choice(sorted(t.slots) or [0])
    (m, n), mark = t.slots.get(slot, ((0, 0), 0))
    if g.random() < 0.5:
        m, n = any_sort(g, t)
    table += [1, m, n, slot, g.choice([mark, 1 - mark]), 0]


def spoil_cells(g, t, cells):
    """One more cell, too wide, of no array, or only a part of one."""
    arrays = [s for s in t.slots if t.slots[s][0][0]]
    slot = g.choice(arrays or [0])
    m, n = t.slots[slot][0] if arrays else (1, 1)
    cell = g.choice([[slot, 2 ** m, 0], [slot, 0, 2 ** n], [g.randrange(300), 1, 1], [slot], [slot, 0]])
    cells += [min(x, 4294967295) for x in cell]


def spoil(g, t, table, sheet, values, cells, allowance):
    what = g.randrange(14)
    if what >= 11 or g.random() < 0.1:
        sheet = spoil_sheet(g, sheet)
    if what >= 11 and g.random() < 0.8:
        return table, sheet, values, cells, allowance
    if what < 4:
        spoil_term(g, t, table)
    elif what == 4:
        spoil_variable(g, t, table)
    elif what == 5:
        del table[g.choice([0, 1, len(table) - 1, len(table) - 4]):]
    elif what == 6:
        del values[g.choice([0, 1, len(values) // 2]):]
    elif what == 7 and values:
        values[g.choice(sorted(t.slots) or [0])] = g.choice([2, 256, 4294967295])
    else:
        spoil_cells(g, t, cells)
    return table, sheet, values, cells, allowance


def sure(g):
    """Files at the limits, and one past each; a byte-order mark; a cut sheet; allowances of two numbers and of none. Of each four
    the second is finished or printed too."""
    base, limit = b"table 1 0 0 0 0 0\nvalues 1\ncells\n", b"\nallowance 3"
    lines = b"sheet " + b"0 0 0\n" * ((OTHERS - 2) // 3)          # with a value and the allowance, as many as may be
    wide = widest(g)
    values, cells, allowance = wide.setting()
    table = [x for term in wide.terms for x in term] + [2, 0, 0, len(wide.terms) - 1, 0, 0]
    return [b"\xef\xbb\xbf" + base + limit,
            base + limit + b"\nsheet 1 0",
            base + b"0 " * (OTHERS - 1) + limit,
            base + lines + limit,
            base + lines + b"1" + limit,
            base + limit + b"\n" + lines + b"1",
            b"sheet " + base + b"sheet" + limit,
            b"table " + b"0 0 0 1 0 0\n" * 80000 + b"values cells allowance 0",
            b"table " + b"0 0 0 1 0 0\n" * 80000 + b" 7 values cells allowance 0",
            base + b"allowance 3;" + b"x" * (LIMIT - len(base) - 12),
            base + b"allowance 3;" + b"x" * (LIMIT - len(base) - 11),
            text_of(g, (table, wide.sheet(), values, cells, 4294967295)),
            base + limit + b" 4",
            base + b"0 " * (OTHERS - 2) + limit,
            base + b"\nallowance"]


KINDS = {"whole": 16, "chain": 11, "choices": 9, "marks": 4, "signed": 12, "spoilt": 28, "odd": 24,
         "numbers": 4, "text": 12, "both": 3, "random": 2, "wide": 0.3}
MAKERS = {"wide": widest, "chain": chain, "choices": choices, "marks": marks, "signed": signed}


def make(g):
    kind = g.choices(list(KINDS), KINDS.values())[0]
    if kind == "random":
        words = WORDS + [b"1", b"0", b"7"] * 8 + [b";"]
        return kind, b"".join(g.choice(words) + g.choice([b" ", b"\n", b"\t", b""]) for _ in range(g.randrange(60)))
    maker = MAKERS.get(kind, chain if kind == "spoilt" and g.random() < 0.3 else None)
    t = maker(g) if maker else Table(g, g.choice([1, 2, 3, 6, 12, 25, 60]))
    if kind == "odd":
        odd_term(g, t)
    values, cells, allowance = t.setting()
    case = [x for term in t.terms for x in term], t.sheet(), values, cells, allowance
    if kind == "spoilt":
        case = spoil(g, t, *case)
    if kind in ("numbers", "both"):
        case = damage_numbers(g, *case)
    text = text_of(g, case)
    if kind in ("text", "both"):
        text = damage_text(g, text)
    return kind, text
