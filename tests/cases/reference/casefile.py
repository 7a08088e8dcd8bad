"""A case file's text: its tokens, its parts with the line of every number, and what is wrong with a file."""
import re

LIMIT, TABLE, OTHERS, SHOWN = 4194304, 480000, 200000, 24
ASKED = [b"table", b"values", b"cells", b"allowance"]
PARTS = ASKED + [b"sheet"]                          # the sheet may be left out
TOKEN = re.compile(rb"\n|;[^\n]*|[^\t-\r ;]+")
MARK = b"\xef\xbb\xbf"
KINDS = {
    1: "neither a number nor table, sheet, values, cells or allowance",
    2: "a number of 2^32 (4294967296) or more",
    3: "a number before the words table, sheet, values, cells, allowance",
    4: "this part was given before",
    5: "allowance takes one number, and this is another",
    7: "the file ends without its part table",
    8: "the file ends without its part values",
    9: "the file ends without its part cells",
    10: "the file ends without its part allowance",
    11: "allowance has no number",
    12: "the file is larger than 4194304 bytes",
    13: "the table has more than 480000 numbers",
    14: "sheet, values, cells and allowance together have more than 200000 numbers",
    15: "a byte-order mark (EF BB BF): save the file without it",
}


class Misread(Exception):
    """What is wrong with a file: kind, line, and where a token is at fault its column and the token."""

    def __init__(self, kind, line, column=None, word=None):
        self.kind, self.line, self.column, self.word = kind, line, column, word

    def told(self):
        where = b"%d: " % self.line
        if self.column is not None:
            where = b"%d:%d: " % (self.line, self.column)
        if self.word is not None:
            where += b'"%s": ' % shown(self.word)
        return where + KINDS[self.kind].encode()


def shown(word):
    front = bytes(b if 33 <= b <= 126 else ord("?") for b in word[:SHOWN])
    return front + (b"..." if len(word) > SHOWN else b"")


class Case:
    """The parts of a file: numbers by word, the line of each, and the line of each word."""

    def __init__(self):
        self.numbers, self.lines, self.line_of = {}, {}, {}
        self.part, self.others = None, 0

    def begin(self, word, line):
        self.numbers[word], self.lines[word], self.line_of[word] = [], [], line
        self.part = word

    def take(self, value, line):
        self.numbers[self.part].append(value)
        self.lines[self.part].append(line)
        self.others += self.part != b"table"

    table = property(lambda self: self.numbers[b"table"])
    sheet = property(lambda self: self.numbers.get(b"sheet", []))
    values = property(lambda self: self.numbers[b"values"])
    cells = property(lambda self: self.numbers[b"cells"])
    allowance = property(lambda self: self.numbers[b"allowance"][0])

    def line(self, part, k):
        return self.lines[part][k]

    def odd_line(self):
        """The first line of the table whose count of numbers is no multiple of six, and the count."""
        counts = {}
        for line in self.lines[b"table"]:
            counts[line] = counts.get(line, 0) + 1
        return next(((line, k) for line, k in counts.items() if k % 6), None)


def number(word):
    """A token of digits as a number; what is too long to fit is some number that does not fit."""
    digits = word.lstrip(b"0")
    return int(digits or b"0") if len(digits) <= 10 else 2 ** 40


def fault_of_word(case, word, first):
    if word in PARTS:
        return 4 if word in case.numbers else None
    return 15 if first and word.startswith(MARK) else 1


def fault_of_number(case, value):
    if value >= 2 ** 32:
        return 2
    if case.part is None:
        return 3
    if case.part == b"allowance" and case.numbers[case.part]:
        return 5
    if case.part == b"table" and len(case.numbers[case.part]) == TABLE:
        return 13
    return 14 if case.part != b"table" and case.others == OTHERS else None


def take_token(case, word, line, column, first):
    if word.isdigit():
        value = number(word)
        kind = fault_of_number(case, value)
        if kind is None:
            case.take(value, line)
    else:
        kind = fault_of_word(case, word, first)
        if kind is None:
            case.begin(word, line)
    if kind is not None:
        raise Misread(kind, line, column, None if kind == 15 else word)


def read_case(text):
    whole = len(text) <= LIMIT
    text = text[:LIMIT]
    case, line, start = Case(), 1, 0
    for match in TOKEN.finditer(text):
        word = match.group()
        if word == b"\n":
            line, start = line + 1, match.end()
        elif not word.startswith(b";"):
            if not whole and match.end() == LIMIT:
                break                               # the limit may have cut it
            take_token(case, word, line, match.start() - start + 1, match.start() == 0)
    if not whole:
        raise Misread(12, line)
    for k, word in enumerate(ASKED):
        if word not in case.numbers:
            raise Misread(7 + k, line)
    if not case.numbers[b"allowance"]:
        raise Misread(11, line)
    return case
