"""Mark sheets, by request 06: which are taken, the line that decides for a slot, the marks that hold."""
from admission import Refused
from words import count

KEEP, MARK = 0, 1
KIND = {KEEP: "keep", MARK: "mark"}


def lines_of(numbers):
    return [tuple(numbers[k:k + 3]) for k in range(0, len(numbers), 3)]


def line_fault(line):
    if len(line) < 3:
        return "the last line has %s, not three" % count(len(line), "number")
    kind, low, high = line
    if kind not in KIND:
        return "the kind is %d, and 1 (mark) or 0 (keep) is asked" % kind
    if low > high:
        return "the slots go from %d down to %d, and the lowest comes first" % (low, high)
    return "the slot is %d, at most 255 is allowed" % high if high > 255 else None


def check_sheet(case):
    """The lowest faulty line; all are looked at, whether their slots are used or not."""
    for k, line in enumerate(lines_of(case.sheet)):
        reason = line_fault(line)
        if reason:
            raise Refused(16, k, case.line(b"sheet", 3 * k), reason)


def deciding(lines, slot):
    """The number of the line that decides for a slot: the first mark line that names it, else the first keep line; or None."""
    for wanted in (MARK, KEEP):
        for k, (kind, low, high) in enumerate(lines):
            if kind == wanted and low <= slot <= high:
                return k
    return None


class Marks:
    """The marks that hold under a sheet that is not refused; slots are those of some variable, with the table's mark."""

    def __init__(self, numbers, table_marks):
        self.lines = lines_of(numbers)
        self.of_table = table_marks
        self.line = {slot: deciding(self.lines, slot) for slot in table_marks}

    def marked(self, slot):
        k = self.line[slot]
        return bool(self.of_table[slot] if k is None else self.lines[k][0] == MARK)

    def told(self, slot):
        """What decides for a slot."""
        k = self.line[slot]
        if k is None:
            return "no line names it; the table %s it" % ("marks" if self.of_table[slot] else "does not mark")
        kind, low, high = self.lines[k]
        named = "%d" % low if low == high else "%d to %d" % (low, high)
        return "%s by line %d (%s %s)" % ("marked" if kind == MARK else "kept", k, KIND[kind], named)
