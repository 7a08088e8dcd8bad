#!/usr/bin/env python3
"""Holds what graph printed to docs/PROGRAM.md: DOT's syntax, nodes with shape, fill and label, edges, the way down.

  tests/cases/graphs.py CASE DOT...      pairs of a case file and what graph printed of it; status 1 where one is wrong
"""
import os
import re
import shutil
import subprocess
import sys
sys.dont_write_bytecode = True
sys.path.insert(0, os.path.join(os.path.dirname(os.path.abspath(__file__)), "reference"))
from casefile import read_case
from explaining import support, way_down
from judging import Setting
from words import NAMES, has_condition, is_array, operands, operator, value_name

TOKEN = re.compile(r'\s+|//[^\n]*|/\*.*?\*/|(?:(?<=\n)|^)#[^\n]*|(?P<string>"(?:[^"\\]|\\.)*")|(?P<word>[A-Za-z_\d.]+)|'
                   r'(?P<sign>->|[{}\[\]=;,])', re.S)
FILLS = {"orange", "green", "red", "white"}


class Wrong(Exception):
    pass


def tokens(text):
    place = 0
    while place < len(text):
        match = TOKEN.match(text, place)
        if not match:
            raise Wrong("no DOT at %r" % text[place:place + 20])
        if match.lastgroup == "string":
            yield "id", match.group()[1:-1]
        elif match.lastgroup == "word":
            yield "id", match.group()
        elif match.lastgroup == "sign":
            yield match.group(), match.group()
        place = match.end()


class Dot:
    """The nodes with their attributes and the edges as (from, to, attributes) of a digraph."""

    def __init__(self, text):
        self.left = list(tokens(text)) + [("end", "")]
        self.nodes, self.edges = {}, []
        if self.peek("id") and self.left[0][1] == "strict":
            self.take("id")
        if self.take("id") != "digraph":
            raise Wrong("it is no digraph")
        if self.peek("id"):
            self.take("id")
        self.block({}, {})
        self.take("end")

    def peek(self, kind):
        return self.left[0][0] == kind

    def take(self, kind):
        if not self.peek(kind):
            raise Wrong("%r where %s is expected" % (self.left[0][1], kind))
        return self.left.pop(0)[1]

    def block(self, node, edge):
        """Statements in braces; what node and edge say in them holds up to the end."""
        node, edge = dict(node), dict(edge)
        self.take("{")
        while not self.peek("}"):
            self.statement(node, edge)
            if self.peek(";"):
                self.take(";")
        self.take("}")

    def statement(self, node, edge):
        if self.peek("{"):
            return self.block(node, edge)
        names = [self.take("id")]
        if names[0] == "subgraph":
            if self.peek("id"):
                self.take("id")
            return self.block(node, edge)
        if self.peek("="):
            self.take("=")
            return self.take("id")
        while self.peek("->"):
            self.take("->")
            names.append(self.take("id"))
        given = self.attributes()
        if len(names) == 1 and names[0] in ("graph", "node", "edge"):
            return {"graph": {}, "node": node, "edge": edge}[names[0]].update(given)
        self.put(names, given, node, edge)

    def put(self, names, given, node, edge):
        for name in names:
            self.nodes.setdefault(name, dict(node))
        if len(names) == 1:
            self.nodes[names[0]].update(given)
        for a, b in zip(names, names[1:]):
            self.edges.append((a, b, dict(edge, **given)))

    def attributes(self):
        given = {}
        while self.peek("["):
            self.take("[")
            while not self.peek("]"):
                name = self.take("id")
                self.take("=")
                given[name] = self.take("id")
                if self.peek(",") or self.peek(";"):
                    self.left.pop(0)
            self.take("]")
        return given


def styles(given):
    return set(given.get("style", "").replace(" ", "").split(",")) - {""}


def node_faults(j, t, given):
    term = j.terms[t]
    marked = j.marked(term)
    bare = not has_condition(term)
    shape = "octagon" if marked else "box" if term[0] == 1 else "ellipse" if bare or j.free[t] else "hexagon"
    if given.get("shape", "ellipse") != shape:
        yield "t%d has not the shape %s" % (t, shape)
    fill = "orange" if marked else "white" if bare else "green" if j.free[t] else "red"
    held = given.get("fillcolor", "")
    if "filled" not in styles(given) or {f for f in FILLS if f in held} != {fill}:
        yield "t%d is not filled %s" % (t, fill)
    label = re.sub(r"\\[nlr]", " ", given.get("label", ""))
    names = ["slot %d" % term[3]] if term[0] == 1 else [NAMES[term[0]]]
    names += [operator(term)] if term[0] == 0 else []
    value = None if is_array(term[1:3]) else value_name(term, j.v[t])
    if not re.search(r"(?<!\w)t%d(?!\w)" % t, label) or not any(name in label for name in names):
        yield "t%d is not labelled with its number and operator: %s" % (t, label)
    if value is not None and not re.search(r"(?<!\w)%s(?!\w)" % value, label):
        yield "t%d is not labelled with its value: %s" % (t, label)
    if "tooltip" in given:
        yield "t%d has a tooltip, and a case was not typed" % t


def pairs_of(edges, style):
    return {(a, b) for a, b, given in edges if style in styles(given)}


def edge_faults(j, edges):
    own = {("t%d" % t, "t%d" % x) for t, term in enumerate(j.terms) for x in operands(term)}
    way = {("t%d" % t, "t%d" % x) for t in way_down(j) for x, _ in support(j, t)}
    plain = [(a, b) for a, b, given in edges if "dashed" not in styles(given)]
    if set(plain) != own:
        yield "the edges are not those to the operands: %s" % sorted(set(plain) ^ own)
    many = [e for e in own if plain.count(e) > operands(j.terms[int(e[0][1:])]).count(int(e[1][1:]))]
    if many:
        yield "an edge stands too often: %s" % many
    if pairs_of(edges, "bold") != way:
        yield "bold edges are not just the way down: %s" % sorted(pairs_of(edges, "bold") ^ way)
    # what is blamed in two roles may have an edge for each
    if pairs_of(edges, "dashed") != way - own:
        yield "dashed edges are not just those of the way that go to no operand"


def faults(j, text):
    """What is wrong with a graph; j is the judged case."""
    try:
        dot = Dot(text)
    except Wrong as e:
        return [str(e)]
    if set(dot.nodes) != {"t%d" % t for t in range(len(j.terms))}:
        return ["the nodes are not the terms"]
    found = [f for t in range(len(j.terms)) for f in node_faults(j, t, dot.nodes["t%d" % t])]
    return found + list(edge_faults(j, dot.edges))


def main(arguments):
    status = 0
    for case, dot in zip(arguments[::2], arguments[1::2]):
        with open(case, "rb") as f, open(dot) as g:
            found = faults(Setting(read_case(f.read())), g.read())
        if shutil.which("dot") and subprocess.run(["dot", "-Tsvg", dot], stdout=subprocess.DEVNULL).returncode:
            found.append("dot does not read it")
        for fault in found:
            print("%s: %s" % (case, fault))
            status = 1
    return status


if __name__ == "__main__":
    sys.exit(main(sys.argv[1:]))
