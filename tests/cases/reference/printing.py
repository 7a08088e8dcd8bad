"""A table as SMT-LIB text: the logic, the slots, the terms that are no variables, the rule, the question."""
from words import NAMES, operands, smt_sort, truth


def name(terms, t):
    """A variable is v and its slot, any other term t and its number."""
    op, slot = terms[t][0], terms[t][3]
    return "v%d" % slot if op == 1 else "t%d" % t


def body(terms, term):
    op, _, n, value = term[:4]
    if op == 0:
        return "#b" + format(value, "0%db" % n) if n else truth(value)
    return "(%s)" % " ".join([NAMES[op]] + [name(terms, x) for x in operands(term)])


def text(terms):
    """The lines of the text."""
    slots = {term[3]: term[1:3] for term in terms if term[0] == 1}
    out = ["(set-logic QF_ABV)"]
    out += ["(declare-const v%d %s)" % (slot, smt_sort(slots[slot])) for slot in sorted(slots)]
    out += ["(define-fun t%d () %s %s)" % (t, smt_sort(term[1:3]), body(terms, term))
            for t, term in enumerate(terms) if term[0] != 1]
    return out + ["(assert %s)" % name(terms, len(terms) - 1), "(check-sat)"]
