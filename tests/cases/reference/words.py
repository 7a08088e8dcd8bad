"""How terms, sorts and values are written."""
NAMES = ["constant", "variable", "not", "and", "or", "=>", "=", "ite", "bvnot", "bvand", "bvor", "bvadd",
         "bvmul", "bvshl", "bvult", "select", "store", "bvneg", "bvsub", "bvslt", "bvashr"]
BOOL = (0, 0)


def is_array(sort):
    return sort[0] > 0


def is_vector(sort):
    return sort[0] == 0 and sort[1] > 0


def largest(width):
    """The largest value of a width; 0 is a Boolean's."""
    return 2 ** width - 1 if width else 1


def greatest(width):
    """The greatest value of a width whose highest bit, the sign, is 0; the next is the least, below zero."""
    return 2 ** (width - 1) - 1


def has_condition(term):
    """A store has none, and neither has a choice of arrays."""
    return term[0] == 1 or not is_array(term[1:3])


def operand_count(op):
    if op <= 1:
        return 0
    return 1 if op in (2, 8, 17) else 3 if op in (7, 16) else 2


def operands(term):
    return term[3:3 + operand_count(term[0])]


def sort_name(sort):
    m, n = sort
    return "Bool" if sort == BOOL else "BitVec %d" % n if m == 0 else "Array %d %d" % (m, n)


def smt_sort(sort):
    m, n = sort
    vector = "(_ BitVec %d)"
    return "Bool" if sort == BOOL else vector % n if m == 0 else "(Array %s %s)" % (vector % m, vector % n)


def operator(term):
    op, m, n, p, q, r = term
    if op == 0:
        return truth(p) if n == 0 else "(_ bv%d %d)" % (p, n)
    if op == 1:
        return "slot %d" % p
    return "(%s %s)" % (NAMES[op], " ".join("t%d" % x for x in operands(term)))


def truth(b):
    return "true" if b else "false"


def value_name(term, value):
    if is_array(term[1:3]):
        return "-"
    return truth(value) if term[1:3] == BOOL else "%d" % value


def count(n, word):
    return "%d %s%s" % (n, word, "" if n == 1 else "s")
