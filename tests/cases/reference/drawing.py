"""The rule as a tree of text, and as a graph for Graphviz."""
from explaining import support, way_down
from words import NAMES, has_condition, is_array, operands, value_name

LEVELS = 12
PLAIN = {"free": "free", "not free": "not free", "marked": "marked"}
COLOURED = {"free": "\033[32mfree\033[0m", "not free": "\033[31mnot free\033[0m", "marked": "\033[1mmarked\033[0m"}


def name(term):
    return "slot %d" % term[3] if term[0] == 1 else NAMES[term[0]]


class Tree:
    """The lines of a tree; terms that were shown; terms that were put off."""

    def __init__(self, j, words):
        self.j, self.words = j, words
        self.lines, self.shown, self.off = [], set(), []
        self.grow(len(j.terms) - 1, 1, "", "")
        for t in self.off:                          # grows while it is gone through
            if t not in self.shown:
                self.lines.append("")
                self.grow(t, 1, "", "")

    def text(self, t):
        term = self.j.terms[t]
        if not has_condition(term):
            return "t%d %s" % (t, name(term))
        is_what = ": array" if is_array(term[1:3]) else " = " + value_name(term, self.j.v[t])
        text = "t%d %s%s, %s" % (t, name(term), is_what, self.words["free" if self.j.free[t] else "not free"])
        return text + (", " + self.words["marked"] if self.j.marked(term) else "")

    def grow(self, t, level, first, rest):
        """The line of a term, after the signs of its branch; below it its operands."""
        below = operands(self.j.terms[t])
        if t in self.shown:
            self.lines.append("%st%d: see above" % (first, t))
        elif below and level > LEVELS:
            self.lines.append("%st%d: see below" % (first, t))
            self.off += [] if t in self.off else [t]
        else:
            self.shown.add(t)
            self.lines.append(first + self.text(t))
            for k, x in enumerate(below):
                last = k == len(below) - 1
                self.grow(x, level + 1, rest + ("`- " if last else "|- "), rest + ("   " if last else "|  "))


def tree(j, colour):
    return Tree(j, COLOURED if colour else PLAIN).lines


def node(j, t):
    term = j.terms[t]
    marked = j.marked(term)
    bare = not has_condition(term)
    shape = "octagon" if marked else "box" if term[0] == 1 else "ellipse" if bare or j.free[t] else "hexagon"
    fill = "orange" if marked else "white" if bare else "green" if j.free[t] else "red"
    value = "" if is_array(term[1:3]) else " = " + value_name(term, j.v[t])
    return 't%d [label="t%d %s%s", shape=%s, style=filled, fillcolor=%s];' % (t, t, name(term), value, shape, fill)


def graph(j):
    out = ["digraph rule {"] + ["  " + node(j, t) for t in range(len(j.terms))]
    way = {t: [x for x, _ in support(j, t)] for t in way_down(j)}
    for t, term in enumerate(j.terms):
        for x in dict.fromkeys(operands(term)):
            out.append("  t%d -> t%d%s;" % (t, x, " [style=bold]" if x in way.get(t, []) else ""))
        for x in dict.fromkeys(way.get(t, [])):
            if x not in operands(term):
                out.append('  t%d -> t%d [style="bold,dashed"];' % (t, x))
    return out + ["}"]
