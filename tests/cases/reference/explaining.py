"""Rows, verdict, what settled a term, why the condition is false, and what would mend it."""
from judging import settles
from words import NAMES, has_condition, operands, operator, sort_name, truth, value_name

BROAD, REPAIR = 80, 78


def padded(text, width):
    return text.ljust(width) if len(text) < width else text + " "


def front(t, term):
    return "%6s  %s%s" % ("t%d" % t, padded(operator(term), 26), sort_name(term[1:3]).ljust(13))


def explain_rows(j):
    out = ["  term  operator                  sort         mark         value  condition"]
    for t, term in enumerate(j.terms):
        mark = ("marked" if j.marked(term) else "-") if term[0] == 1 else ""
        condition = truth(j.free[t]) if has_condition(term) else "-"
        out.append("%s%-6s%12s  %s" % (front(t, term), mark, value_name(term, j.v[t]), condition))
    return out


def sheet_section(j):
    """What decides for each variable, where the sheet has a line."""
    rows = ["%6s  %s%s" % ("t%d" % t, padded(operator(term), 26), j.marks.told(term[3]))
            for t, term in enumerate(j.terms) if term[0] == 1]
    return ["", "Marks under the sheet:"] + rows if j.marks.lines else []


def evaluate_rows(j):
    out = ["  term  operator                  sort                value"]
    return out + ["%s%12s" % (front(t, term), value_name(term, j.v[t])) for t, term in enumerate(j.terms)]


def verdict(j):
    rule, free = j.rule(), j.rule_free()
    if free:
        last = "passes: the rule is true" if rule else "does not pass: the rule is false"
        last += " whatever the marked inputs are."
    else:
        last = "does not pass: " + ("" if rule else "the rule is false, and ") + "the marked inputs may matter."
    return ["", "The rule, t%d, is %s. Its condition is %s." % (len(j.terms) - 1, truth(rule), truth(free)),
            "The setting " + last, "Steps %d, left %d." % (j.steps, j.left)]


# ---- what settled a term ----

def whole_array(j, a):
    """What a whole array stands on, depth first: tests, indexes, stored values, variables."""
    op, m, n, p, q, r = j.terms[a]
    if op == 16:
        return [q, r] + whole_array(j, p)
    if op == 7:
        return [p] + whole_array(j, q) + whole_array(j, r)
    return [a]


def picked(j, a):
    """The branch that a choice's test picks."""
    op, m, n, p, q, r = j.terms[a]
    return q if j.v[p] else r


def settled_read(j, array, index):
    """The first that is not free in the array, and what settled the read."""
    unfree = [x for x in whole_array(j, array) if not j.free[x]][:1]
    a = array
    while j.terms[a][0] != 1:
        op, m, n, p, q, r = j.terms[a]
        if op == 7 and not j.free[p]:
            return unfree, "both branches of choice t%d are free and equal there." % a
        if op == 16 and not j.free[q]:
            return unfree, "t%d, which store t%d holds, is free and equal to what is beneath." % (r, a)
        if op == 16 and j.v[q] == j.v[index]:
            return unfree, "store t%d holds t%d there, which is free." % (a, r)
        a = p if op == 16 else picked(j, a)
    return unfree, "the read comes to t%d, which is not marked." % a


def settled_choice(j, test, first, second):
    if j.free[test]:
        return "the test t%d is free and picks t%d, which is free." % (test, first if j.v[test] else second)
    return "t%d and t%d are free and equal (%s)." % (first, second, value_name(j.terms[first], j.v[first]))


def settling_operand(j, term):
    """The first free operand whose value settles an operator of two operands."""
    op, m, n, p, q, r = term
    if op in (13, 20):
        return q if op == 13 else p
    a, b = settles(op, j.terms[p][2])
    return p if j.free[p] and j.v[p] == a else q


def settled(j, t):
    """(what is not free, what settled it) of a term that is free though something beneath is not; else None."""
    term = j.terms[t]
    op, m, n, p, q, r = term
    if op in (0, 1, 16) or not j.free[t]:
        return None
    if op == 15:
        unfree, by = settled_read(j, p, q)
        return (unfree, by) if unfree else None
    unfree = [x for x in dict.fromkeys(operands(term)) if not j.free[x]]
    if not unfree:
        return None
    if op == 7:
        return unfree, settled_choice(j, p, q, r)
    x = settling_operand(j, term)
    return unfree, "t%d is free and %s." % (x, value_name(j.terms[x], j.v[x]))


def not_free(names):
    """t1 is not free; t1 and t2 are not free."""
    return " and ".join("t%d" % x for x in names) + (" is" if len(names) == 1 else " are") + " not free"


def settled_section(j):
    out = []
    for t, term in enumerate(j.terms):
        found = settled(j, t)
        if found:
            head = "t%d %s: %s," % (t, operator(term), not_free(found[0]))
            rest = "but " + found[1]
            whole = head + " " + rest
            out += [whole] if len(whole) <= BROAD else [head, "    " + rest]
    return ["", "Free though an operand is not:"] + out if out else []


# ---- why the condition is false ----

def support_of_read(j, array, index):
    """The index, the indexes of the stores and the tests of the choices on the way, and what holds the value; each with its part."""
    found, a = [(index, "the index")], array
    while j.terms[a][0] != 1:
        op, m, n, p, q, r = j.terms[a]
        if op == 7:
            found.append((p, "the test of choice t%d" % a))
            a = picked(j, a)
            continue
        found.append((q, "the index of store t%d" % a))
        if j.v[q] == j.v[index]:
            return found + [(r, "which store t%d holds there" % a)]
        a = p
    return found + [(a, "the array beneath")]


def support(j, t):
    """What the term's value comes from in this setting, with its part; only what is not free."""
    term = j.terms[t]
    op, m, n, p, q, r = term
    if op == 7:
        found = [(p, "the test"), (q if j.v[p] else r, "which the test picks")]
    elif op == 15:
        found = support_of_read(j, p, q)
    else:
        found = [(x, None) for x in dict.fromkeys(operands(term))]
    return [(x, part) for x, part in found if not j.free[x]]


def way_down(j):
    """The terms on the way from the rule, by descending number; empty where the condition is true."""
    way = set() if j.rule_free() else {len(j.terms) - 1}
    for t in range(len(j.terms) - 1, -1, -1):
        if t in way:
            blamed = [x for x, _ in support(j, t)]
            assert not j.free[t] and all(x < t for x in blamed) and (blamed or j.terms[t][0] == 1)
            way.update(blamed)
    return sorted(way, reverse=True)


def settling_line(j, x, reached, asked):
    value = value_name(j.terms[x], j.v[x])
    if j.free[x]:
        return "t%d is free, but it is %s: a free %s would have settled it." % (x, value, asked)
    if reached:
        return "t%d is %s, but not free: only a free %s settles it." % (x, value, asked)
    return "t%d is %s, and not free: a free %s would have settled it." % (x, value, asked)


def would_settle(j, term):
    """What would have settled an operator of one or two operands."""
    op, m, n, p, q, r = term
    if op in (2, 8, 17):
        return ["A free operand would have settled it."]
    if op in (6, 11, 18):
        return ["No value of one operand settles %s: both must be free." % NAMES[op]]
    if op == 13:
        return [settling_line(j, q, j.v[q] >= n, "%d or more" % n)]
    if op == 20:
        return [settling_line(j, p, j.v[p] in (0, 2 ** n - 1), "0 or -1")]
    sides = dict.fromkeys(zip((p, q), settles(op, j.terms[p][2])))
    return [settling_line(j, x, j.v[x] == s, value_name(j.terms[x], s)) for x, s in sides]


def what_it_is(j, part):
    """What a part of a choice or a read is that is not free."""
    if part == "the array beneath":
        return "marked"
    choice = part.removeprefix("the test of choice t")
    return "not free" if choice == part else "not free: it picks t%d" % picked(j, int(choice))


def parts_told(j, term, blamed):
    """A line for each part of a choice or a read that is not free."""
    out = ["t%d, %s, is %s." % (x, part, what_it_is(j, part)) for x, part in blamed]
    if term[0] == 7 and not j.free[term[3]]:
        def is_what(x):
            return "t%d is %s and %sfree" % (x, value_name(j.terms[x], j.v[x]), "" if j.free[x] else "not ")
        out[1:1] = ["Branches free and equal would have settled it:", "%s, %s." % tuple(map(is_what, term[4:]))]
    return out


def told(j, t):
    term = j.terms[t]
    if term[0] == 1:
        lines = ["this input is marked."]
    elif term[0] in (7, 15):
        lines = parts_told(j, term, support(j, t))
    else:
        lines = [not_free([x for x, _ in support(j, t)]) + "."] + would_settle(j, term)
    return ["t%d %s: %s" % (t, operator(term), lines[0])] + ["    " + line for line in lines[1:]]


def repair(j):
    """The slots of the marked inputs on the way, ascending."""
    return sorted({j.terms[t][3] for t in way_down(j) if j.terms[t][0] == 1})


def broken(text):
    """The text in lines of at most 78 columns, each broken after a comma."""
    lines = []
    for piece in text.replace(", ", ",\n").split("\n"):
        if lines and len(lines[-1]) + 1 + len(piece) <= REPAIR:
            lines[-1] += " " + piece
        else:
            lines.append(piece)
    return lines


def repair_lines(j):
    slots = [str(s) for s in repair(j)]
    named = "slot " + slots[0] if len(slots) == 1 else "slots %s and %s" % (", ".join(slots[:-1]), slots[-1])
    text = "If %s could be vouched for, the condition would be true" % named
    return broken(text) + ["and the setting would pass."] if j.rule() else broken(text + ".")


def why_section(j):
    if j.rule_free():
        return []
    out = ["", "Why the condition is false, from the rule down:"]
    for t in way_down(j):
        out += told(j, t)
    return out + [""] + repair_lines(j)


def explain(j):
    return explain_rows(j) + sheet_section(j) + verdict(j) + settled_section(j) + why_section(j)
