"""The finished table: the terms, T, F, the groups in ascending term order, and(rule, C(rule)), by paper 01."""
from admission import admit
from judging import settles
from words import BOOL, largest


class Finished:
    def __init__(self, case):
        self.terms = list(admit(case, 512).terms)
        self.rule = len(self.terms) - 1
        self.T, self.F = self.add(0, 1), self.add(0, 0)
        self.C = {}
        for t in range(self.rule + 1):
            self.C[t] = self.group(*self.terms[t])
        self.condition = self.C[self.rule]
        self.last = self.AND(self.rule, self.condition)

    def add(self, op, p, q=0, r=0, sort=BOOL):
        self.terms.append((op, sort[0], sort[1], p, q, r))
        return len(self.terms) - 1

    def NOT(self, p):
        return self.add(2, p)

    def AND(self, p, q):
        return self.add(3, p, q)

    def OR(self, p, q):
        return self.add(4, p, q)

    def EQ(self, p, q):
        return self.add(6, p, q)

    def ITE(self, p, q, r):
        return self.add(7, p, q, r)

    def group(self, op, m, n, p, q, r):
        if op == 0:
            return self.T
        if op == 1:
            return self.F if q else self.T
        if op in (2, 8, 17):
            return self.C[p]
        if op in (6, 11, 18):
            return self.AND(self.C[p], self.C[q])
        if op in (3, 4, 5):
            return self.boolean(op, p, q)
        if op in (9, 10, 12):
            return self.vector(2 ** n - 1 if op == 10 else 0, n, p, q)
        if op in (14, 19):
            return self.less(op, self.terms[p][2], p, q)
        if op == 20:
            return self.shift_right(n, p, q)
        if op == 13:
            return self.shift(n, p, q)
        if op == 15:
            return self.read(p, q)
        return None if m else self.choice(p, q, r)

    def boolean(self, op, p, q):
        """And: false settles; or: true; implies: a false first or a true second operand."""
        C = self.C
        if op == 4:
            first = self.AND(C[p], p)
        else:
            first = self.AND(C[p], self.NOT(p))
        if op == 3:
            second = self.AND(C[q], self.NOT(q))
        else:
            second = self.AND(C[q], q)
        return self.settled(p, first, q, second)

    def settled(self, p, first, q, second):
        """One of the operands settles the result, or both are free."""
        return self.OR(self.OR(first, second), self.AND(self.C[p], self.C[q]))

    def constant(self, value, n):
        return self.add(0, value, sort=(0, n))

    def equals(self, x, constant):
        """An operand is free and has the value that settles the result."""
        return self.AND(self.C[x], self.EQ(x, constant))

    def vector(self, settling, n, p, q):
        constant = self.constant(settling, n)
        return self.settled(p, self.equals(p, constant), q, self.equals(q, constant))

    def less(self, op, n, p, q):
        """Nothing is above the greatest, and nothing is below the least; n is the operands' width."""
        above, below = settles(op, n)
        first = self.equals(p, self.constant(above, n))
        return self.settled(p, first, q, self.equals(q, self.constant(below, n)))

    def shift_right(self, n, p, q):
        """0 and all ones stay what they are: both are asked of the first operand."""
        first = self.equals(p, self.constant(0, n))
        return self.settled(p, first, q, self.equals(p, self.constant(largest(n), n)))

    def shift(self, n, p, q):
        C, constant = self.C, self.constant(n, n)
        amount = self.AND(C[q], self.NOT(self.add(14, q, constant)))
        return self.OR(amount, self.AND(C[p], C[q]))

    def choice(self, p, q, r):
        C = self.C
        picked = self.AND(C[p], self.ITE(p, C[q], C[r]))
        both = self.AND(C[q], C[r])
        return self.OR(picked, self.AND(both, self.EQ(q, r)))

    def read(self, array, j):
        """The group of a read at index j, depth first: one term for each variable met, nine for a store, eight for a choice."""
        op, m, n, p, q, r = self.terms[array]
        if op == 1:
            return self.AND(self.C[array], self.C[j])
        return self.stored(n, p, q, r, j) if op == 16 else self.chosen(n, p, q, r, j)

    def stored(self, n, A, i, e, j):
        C, D = self.C, self.read(A, j)
        beneath = self.add(15, A, j, sort=(0, n))
        picked = self.ITE(self.EQ(i, j), C[e], D)
        test = self.AND(self.AND(C[i], C[j]), picked)
        equal = self.EQ(e, beneath)
        return self.OR(test, self.AND(self.AND(C[e], D), equal))

    def chosen(self, n, c, first, second, j):
        Dq = self.read(first, j)
        Dr = self.read(second, j)
        reads = [self.add(15, array, j, sort=(0, n)) for array in (first, second)]
        test = self.AND(self.C[c], self.ITE(c, Dq, Dr))
        both = self.AND(Dq, Dr)
        return self.OR(test, self.AND(both, self.EQ(*reads)))


def by_three(numbers):
    return [" ".join(map(str, numbers[k:k + 3])) for k in range(0, len(numbers), 3)]


def finish(case):
    done = Finished(case)
    out = ["; %d terms. C(rule) is term %d; the last, term %d, is (and t%d t%d)."
           % (len(done.terms), done.condition, done.last, done.rule, done.condition), "table"]
    out += [" ".join(map(str, term)) for term in done.terms]
    if case.sheet:
        out += ["; Finishing takes no sheet: C(rule) goes by the table's own marks.", "sheet"] + by_three(case.sheet)
    out.append(" ".join(["values"] + [str(x) for x in case.values]))
    out.append("cells")
    out += by_three(case.cells)
    return out + ["allowance %d" % case.allowance]
