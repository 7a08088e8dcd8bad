"""A typed rule as the solvers are asked about it: request 02's text, and a name for each term of its table.

The text is one that the library accepts. What stands here finds the expressions in it, in the table's order; their sorts are those
of the library's table, and a solver that finds another one says so.
"""
import collections
import re

LOGIC = "(set-logic QF_ABV)"

# An expression that adds a term: its number, and its text with the numbers of its operands known.
Expression = collections.namedtuple("Expression", "number text")


def words(text):
    return re.findall(r"[()]|[^()\s]+", text)


class Reading:
    """The declared names, and each term of the table as an expression of the text."""

    def __init__(self, text):
        self.words = words(text)
        self.place = 0
        self.names = []
        self.declarations = []
        self.asserts = []
        self.expressions = []
        self.joined = None
        while self.words[self.place + 1] != "check-sat":
            self.command()
        if len(self.asserts) == 1 and self.joined in self.names:
            self.add(f"(and {self.joined} {self.joined})")

    def command(self):
        start = self.place
        if self.words[start + 1] == "declare-const":
            self.names.append(self.words[start + 2])
            self.skip()
            self.declarations.append(" ".join(self.words[start:self.place]))
            return
        self.place += 2
        asserted = self.expression()
        self.place += 1
        self.asserts.append(asserted)
        self.joined = self.add(f"(and {self.joined} {asserted})") if len(self.asserts) > 1 else asserted

    def skip(self):
        """Past one list or word."""
        depth = 0
        while True:
            depth += {"(": 1, ")": -1}.get(self.words[self.place], 0)
            self.place += 1
            if depth == 0:
                return

    def add(self, text):
        number = len(self.names) + len(self.expressions)
        self.expressions.append(Expression(number, text))
        return text

    def expression(self):
        """The text of the expression that begins here; what is in it comes before it among the terms."""
        word = self.words[self.place]
        self.place += 1
        if word != "(":
            return word if word in self.names else self.add(word)
        parts = [self.words[self.place]]
        self.place += 1
        while self.words[self.place] != ")":
            parts.append(self.expression())
        self.place += 1
        return self.add(f"({' '.join(parts)})")


def renamed(text):
    """The same rule with plain names."""
    reading = Reading(text)
    new = {name: f"n{slot}" for slot, name in enumerate(reading.names)}
    parts, asserts = [], False
    for before, word in zip([""] + reading.words, reading.words):
        asserts |= word == "assert"
        parts.append(new.get(word, word) if asserts or before == "declare-const" else word)
    return " ".join(parts)


def term_name(number):
    return f"term!{number}"


def definitions(reading, sorts):
    """The declarations, and a definition for each term, of the sort that the table gives it."""
    texts = [*reading.names, *(expression.text for expression in reading.expressions)]
    lines = [f"(define-fun {term_name(k)} () {sort} {text})" for k, (sort, text) in enumerate(zip(sorts, texts, strict=True))]
    return reading.declarations + lines
