"""Which tables and settings are taken, by paper 01; the refusals of the others, in docs/PROGRAM.md's words."""
from words import BOOL, count, is_array, is_vector, largest, operand_count, sort_name

FIELDS = "pqr"


class Refused(Exception):
    def __init__(self, number, place, line, reason):
        self.number, self.place, self.line, self.reason = number, place, line, reason

    def where(self):
        if self.number in (14, 15):
            return "cell %d" % self.place
        if self.number == 16:
            return "sheet line %d" % self.place
        return ("place %d" if self.number in (1, 2, 11, 23) else "term %d") % self.place

    def told(self):
        return "%d: refused %d at %s: %s" % (self.line, self.number, self.where(), self.reason)


class Table:
    """Admitted terms; the size of each array, and whether a choice is in it; the first variable of each slot."""

    def __init__(self):
        self.terms, self.size, self.chosen, self.first = [], [], [], {}

    def add(self, term):
        if term[0] == 1:
            self.first.setdefault(term[3], len(self.terms))
        self.terms.append(term)
        self.size.append(self.size_of(term))
        self.chosen.append(self.is_chosen(term))

    def beneath(self, term):
        """The arrays over which a store or a choice of arrays stands."""
        op, m, n, p, q, r = term
        return [p] if op == 16 else [q, r] if op == 7 and m else []

    def size_of(self, term):
        """0 for a variable, 1 more than all beneath for a store and a choice."""
        return sum(self.size[x] for x in self.beneath(term)) + bool(self.beneath(term))

    def is_chosen(self, term):
        return bool(self.beneath(term)) and (term[0] == 7 or any(self.chosen[x] for x in self.beneath(term)))

    def sort(self, t):
        return self.terms[t][1:3]

    def steps(self):
        return sum(self.size[term[3]] for term in self.terms if term[0] == 15)


def sort_fault(m, n):
    if m > 32:
        return "the index width is %d, at most 32 is allowed" % m
    if n > 32:
        return "the width is %d, at most 32 is allowed" % n
    return "the width is 0, and an array's is 1 to 32" if m and not n else None


def field_fault(t, term):
    """Operands are below their term; fields that hold nothing are 0."""
    op, fields = term[0], term[3:]
    held = {0: 1, 1: 2}.get(op, 0)                  # a constant's value; a variable's slot and mark
    for k, x in enumerate(fields):
        if k < operand_count(op):
            if x >= t:
                return "operand %s is t%d, which is not below t%d" % (FIELDS[k], x, t)
        elif k >= held and x:
            return "field %s is %d, and this operator has no such operand" % (FIELDS[k], x)
    return None


def askings(op, own, first):
    """What is asked of the sorts, in order: a field, or None for the term itself; a sort or words."""
    if op == 0:
        return [(None, "no Array")]
    if op == 1:
        return []
    if op <= 5:
        return [(None, BOOL), (0, BOOL), (1, BOOL)]
    if op == 6:
        return [(None, BOOL), (0, "no Array"), (1, first)]
    if op == 7:
        return [(0, BOOL), (1, own), (2, own)]
    if op <= 13 or op in (17, 18, 20):
        return [(None, "a BitVec"), (0, own), (1, own)]
    if op in (14, 19):
        return [(None, BOOL), (0, "a BitVec"), (1, first)]
    if op == 15:
        return [(0, "an Array"), (1, (0, first[0])), (None, (0, first[1]))]
    return [(None, "an Array"), (0, own), (1, (0, own[0])), (2, (0, own[1]))]


def answers(sort, asking):
    if asking == "no Array":
        return not is_array(sort)
    if asking == "an Array":
        return is_array(sort)
    return is_vector(sort) if asking == "a BitVec" else sort == asking


def sorts_fault(table, term):
    op, own = term[0], term[1:3]
    of = [table.sort(x) for x in term[3:3 + operand_count(op)]] + [None] * 3
    for field, asking in askings(op, own, of[0]):
        if field is not None and field >= operand_count(op):
            continue
        sort = own if field is None else of[field]
        if not answers(sort, asking):
            who = "the term" if field is None else "operand %s, t%d," % (FIELDS[field], term[3 + field])
            words = asking if isinstance(asking, str) else sort_name(asking)
            return "%s is %s, and %s is asked" % (who, sort_name(sort), words)
    return None


def fits_fault(what, value, width, sort):
    if value > largest(width):
        return "%s is %d, at most %d fits %s" % (what, value, largest(width), sort_name(sort))
    return None


def leaf_fault(term):
    op, m, n, p, q, r = term
    if op == 0:
        return fits_fault("the constant", p, n, (m, n))
    if op == 1 and p > 255:
        return "the slot is %d, at most 255 is allowed" % p
    return "the mark is %d, at most 1 is allowed" % q if op == 1 and q > 1 else None


def clash(table, term):
    op, m, n, p, q, r = term
    if op != 1 or p not in table.first:
        return None
    t = table.first[p]
    if table.sort(t) != (m, n):
        return "t%d has slot %d as %s, and here it is %s" % (t, p, sort_name(table.sort(t)), sort_name((m, n)))
    mark = table.terms[t][4]
    return "t%d has slot %d with mark %d, and here it is %d" % (t, p, mark, q) if mark != q else None


def size_fault(table, term):
    size = table.size_of(term)
    return "%d stores and choices in the array, at most 16 are allowed" % size if size > 16 else None


def term_fault(table, t, term):
    """The lowest number that applies at a term, with its reason."""
    op, m, n, p, q, r = term
    if op > 20:
        return 3, "the op is %d, at most 20 is allowed" % op
    checks = ((4, lambda: sort_fault(m, n)), (5, lambda: field_fault(t, term)), (6, lambda: sorts_fault(table, term)),
              (7, lambda: leaf_fault(term)), (8, lambda: clash(table, term)), (9, lambda: size_fault(table, term)))
    for refusal, check in checks:
        reason = check()
        if reason:
            return refusal, reason
    return None


def admit(case, limit):
    numbers, word = case.table, case.line_of[b"table"]
    if not numbers:
        raise Refused(1, 0, word, "the table has no numbers")
    if len(numbers) % 6:
        raise Refused(1, 0, word, "the table has %s, not six for each term" % count(len(numbers), "number"))
    if len(numbers) > 6 * limit:
        raise Refused(2, 0, word, "the table has %d terms, at most %d are allowed" % (len(numbers) // 6, limit))
    table = Table()
    for t in range(len(numbers) // 6):
        term = tuple(numbers[6 * t:6 * t + 6])
        fault = term_fault(table, t, term)
        if fault:
            raise Refused(fault[0], t, case.line(b"table", 6 * t), fault[1])
        table.add(term)
    if table.sort(t) != BOOL:
        raise Refused(10, t, case.line(b"table", 6 * t), "the rule is %s, and Bool is asked" % sort_name(table.sort(t)))
    return table


def check_variables(case, table):
    values = case.values
    for t, (op, m, n, p, q, r) in enumerate(table.terms):
        if op != 1:
            continue
        if p >= len(values):
            are = "is" if len(values) == 1 else "are"
            raise Refused(12, t, case.line(b"table", 6 * t),
                          "the slot is %d, and there %s %s" % (p, are, count(len(values), "value")))
        reason = fits_fault("the value of slot %d" % p, values[p], n, (0, n))
        if reason:
            raise Refused(13, t, case.line(b"values", p), reason)


def check_cells(case, table):
    for k in range(0, len(case.cells), 3):
        slot, index, value = case.cells[k:k + 3]
        line = case.line(b"cells", k)
        m, n = table.sort(table.first[slot]) if slot in table.first else BOOL
        if not m:
            raise Refused(14, k // 3, line, "slot %d is no array of the table" % slot)
        reason = fits_fault("the index", index, m, (0, m)) or fits_fault("the value", value, n, (0, n))
        if reason:
            raise Refused(15, k // 3, line, reason)


def ready(case, limit, check_sheet=None):
    """The admitted table and its steps, or the first refusal of table, sheet where it is asked for, setting and allowance."""
    table = admit(case, limit)
    if check_sheet:
        check_sheet(case)
    if len(case.cells) % 3:
        raise Refused(11, 0, case.line_of[b"cells"],
                      "the cells have %s, not three for each cell" % count(len(case.cells), "number"))
    check_variables(case, table)
    check_cells(case, table)
    steps = table.steps()
    if case.allowance < steps:
        raise Refused(23, steps, case.line(b"allowance", 0),
                      "the allowance is %d, the reads take %s" % (case.allowance, count(steps, "step")))
    return table, steps
