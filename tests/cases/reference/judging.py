"""Values and conditions of every term, by the rules of paper 01; the marks are those that hold under the sheet."""
from admission import ready
from sheets import Marks, check_sheet
from words import greatest, largest


def sign(n, a):
    return a // 2 ** (n - 1)


def signed_less(n, a, b):
    """SMT-LIB's bvslt: the first alone below zero, or less with equal signs."""
    return int(sign(n, a) > sign(n, b) or (sign(n, a) == sign(n, b) and a < b))


def shifted_right(n, a, b):
    """SMT-LIB's bvashr: what is shifted in is 0, or where the sign is 1 the same with all bits turned."""
    return largest(n) - shifted_right(n, largest(n) - a, b) if sign(n, a) else a // 2 ** min(b, n)


# Of n bits, the term's or for a comparison the operands'.
VALUE = {
    2: lambda n, a, b, c: 1 - a,
    3: lambda n, a, b, c: int(a == 1 and b == 1),
    4: lambda n, a, b, c: int(a == 1 or b == 1),
    5: lambda n, a, b, c: int(a == 0 or b == 1),
    6: lambda n, a, b, c: int(a == b),
    7: lambda n, a, b, c: b if a else c,
    8: lambda n, a, b, c: 2 ** n - 1 - a,
    9: lambda n, a, b, c: a & b,
    10: lambda n, a, b, c: a | b,
    11: lambda n, a, b, c: (a + b) % 2 ** n,
    12: lambda n, a, b, c: a * b % 2 ** n,
    13: lambda n, a, b, c: a * 2 ** b % 2 ** n if b < n else 0,
    14: lambda n, a, b, c: int(a < b),
    17: lambda n, a, b, c: -a % 2 ** n,
    18: lambda n, a, b, c: (a - b) % 2 ** n,
    19: lambda n, a, b, c: signed_less(n, a, b),
    20: lambda n, a, b, c: shifted_right(n, a, b),
}


def settles(op, width):
    """The values with which a free first, and a free second operand of this width settles an operator."""
    if op == 19:
        return greatest(width), greatest(width) + 1
    ones = largest(width)
    return {3: (0, 0), 4: (1, 1), 5: (0, 1), 9: (0, 0), 10: (ones, ones), 12: (0, 0), 14: (ones, 0)}[op]


def stays(value, width):
    """What a shift right leaves as it is, whatever the amount."""
    return value in (0, largest(width))


class Setting:
    """A table in a setting: the value and, where it is judged under the case's sheet, the condition of every term."""

    def __init__(self, case, limit=512, judged=True):
        table, self.steps = ready(case, limit, check_sheet if judged else None)
        self.terms, self.left = table.terms, case.allowance - self.steps
        self.values, self.cell = case.values, {}
        for k in range(0, len(case.cells), 3):
            self.cell.setdefault((case.cells[k], case.cells[k + 1]), case.cells[k + 2])
        self.v, self.free = [], []
        for term in self.terms:
            self.v.append(self.value(term))
        if judged:
            self.marks = Marks(case.sheet, {slot: self.terms[t][4] for slot, t in table.first.items()})
            for term in self.terms:
                self.free.append(self.condition(term))

    def marked(self, term):
        """Whether a term is an input that is marked under the sheet."""
        return term[0] == 1 and self.marks.marked(term[3])

    def held(self, array, index):
        """What an array holds: a store at this index its value, else what is beneath; a choice what the branch taken holds."""
        op, m, n, p, q, r = self.terms[array]
        if op == 16:
            return self.v[r] if self.v[q] == index else self.held(p, index)
        if op == 7:
            return self.held(q if self.v[p] else r, index)
        return self.cell.get((p, index), self.values[p])

    def value(self, term):
        op, m, n, p, q, r = term
        v = self.v
        if op == 0:
            return p
        if op == 1:
            return 0 if m else self.values[p]
        if op == 15:
            return self.held(p, v[q])
        if m:
            return 0
        return VALUE[op](n or self.terms[p][2], v[p], v[q], v[r])

    def condition(self, term):
        op, m, n, p, q, r = term
        c, v = self.free, self.v
        if op <= 1:
            return not self.marked(term)
        if m:
            return None
        if op in (2, 8, 17):
            return c[p]
        if op in (6, 11, 18):
            return c[p] and c[q]
        if op == 7:
            return (c[p] and (c[q] if v[p] else c[r])) or (c[q] and c[r] and v[q] == v[r])
        if op == 13:
            return (c[q] and v[q] >= n) or (c[p] and c[q])
        if op == 20:
            return (c[p] and stays(v[p], n)) or (c[p] and c[q])
        if op == 15:
            return self.read_condition(p, q)
        a, b = settles(op, self.terms[p][2])
        return (c[p] and v[p] == a) or (c[q] and v[q] == b) or (c[p] and c[q])

    def read_condition(self, array, j):
        """D of an array at index term j: that of a variable, of a store over what is beneath, of a choice from both branches."""
        op, m, n, p, q, r = self.terms[array]
        c, v = self.free, self.v
        if op == 1:
            return c[array] and c[j]
        if op == 7:
            first, second = self.read_condition(q, j), self.read_condition(r, j)
            equal = self.held(q, v[j]) == self.held(r, v[j])
            return (c[p] and (first if v[p] else second)) or (first and second and equal)
        below = self.read_condition(p, j)
        picked = c[r] if v[q] == v[j] else below
        return (c[q] and c[j] and picked) or (c[r] and below and v[r] == self.held(p, v[j]))

    def rule(self):
        return bool(self.v[-1])

    def rule_free(self):
        return bool(self.free[-1])
