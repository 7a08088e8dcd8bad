"""What must occur in a comparison: every reason of a refusal, fault of a file, sentence of explain, line of a text, form of
answer."""
import re

SORT = r"(?:Bool|BitVec \d+|Array \d+ \d+)"
REASONS = {
    1: ["the table has no numbers", r"the table has \d+ numbers, not six for each term",
        "the table has 1 number, not six for each term"],
    2: [r"the table has \d+ terms, at most 512 are allowed"],
    3: [r"the op is \d+, at most 20 is allowed"],
    4: [r"the index width is \d+, at most 32 is allowed", r"the width is \d+, at most 32 is allowed",
        "the width is 0, and an array's is 1 to 32"],
    5: [r"operand %s is t\d+, which is not below t\d+" % f for f in "pqr"] +
       [r"field %s is \d+, and this operator has no such operand" % f for f in "qr"],
    6: ["the term is %s, and %s is asked" % (SORT, a) for a in ("Bool", r"BitVec \d+", "a BitVec", "an Array", "no Array")] +
       [r"operand p, t\d+, is %s, and %s is asked" % (SORT, a)
        for a in ("Bool", r"BitVec \d+", r"Array \d+ \d+", "a BitVec", "an Array", "no Array")] +
       [r"operand %s, t\d+, is %s, and %s is asked" % (f, SORT, a) for f in "qr"
        for a in ("Bool", r"BitVec \d+", r"Array \d+ \d+")],
    7: [r"the constant is \d+, at most \d+ fits %s" % s for s in ("Bool", r"BitVec \d+")] +
       [r"the slot is \d+, at most 255 is allowed", r"the mark is \d+, at most 1 is allowed"],
    8: [r"t\d+ has slot \d+ as %s, and here it is %s" % (SORT, SORT),
        r"t\d+ has slot \d+ with mark \d, and here it is \d"],
    9: [r"%s stores and choices in the array, at most 16 are allowed" % n for n in ("17", r"(?:1[89]|[23]\d)")],
    10: ["the rule is %s, and Bool is asked" % s for s in (r"BitVec \d+", r"Array \d+ \d+")],
    11: [r"the cells have \d+ numbers, not three for each cell", "the cells have 1 number, not three for each cell"],
    12: [r"the slot is \d+, and there are \d+ values", r"the slot is \d+, and there is 1 value"],
    13: [r"the value of slot \d+ is \d+, at most \d+ fits %s" % s for s in ("Bool", r"BitVec \d+")],
    14: [r"slot \d+ is no array of the table"],
    15: [r"the index is \d+, at most \d+ fits BitVec \d+", r"the value is \d+, at most \d+ fits BitVec \d+"],
    16: ["the last line has 2 numbers, not three", "the last line has 1 number, not three",
         r"the kind is \d+, and 1 \(mark\) or 0 \(keep\) is asked",
         r"the slots go from \d+ down to \d+, and the lowest comes first", r"the slot is \d+, at most 255 is allowed"],
    23: [r"the allowance is \d+, the reads take \d+ steps", r"the allowance is \d+, the reads take 1 step"],
}
FAULTS = [
    r'\d+:\d+: ".+": neither a number nor table, sheet, values, cells or allowance',
    r'\d+:\d+: ".{24}\.\.\.": .*', r'\d+:\d+: ".*\?.*": .*',
    r'\d+:\d+: "\d+(?:\.\.\.)?": a number of 2\^32 \(4294967296\) or more',
    r'\d+:\d+: "\d+": a number before the words table, sheet, values, cells, allowance',
    r'\d+:\d+: "\w+": this part was given before', r'\d+:\d+: "sheet": this part was given before',
    r'\d+:\d+: "\d+": allowance takes one number, and this is another',
    r"\d+: the file ends without its part table", r"\d+: the file ends without its part values",
    r"\d+: the file ends without its part cells", r"\d+: the file ends without its part allowance",
    r"\d+: allowance has no number", r"\d+: the file is larger than 4194304 bytes",
    r'\d+:\d+: "\d+": the table has more than 480000 numbers',
    r'\d+:\d+: "\d+": sheet, values, cells and allowance together have more than 200000 numbers',
    r"1:1: a byte-order mark \(EF BB BF\): save the file without it",
]
TERM = r"t\d+ \(.*\): "
VALUE = r"(?:true|false|\d+)"
SETTLED = [
    TERM + r"t\d+ is not free, but t\d+ is free and (?:true|false)\.", TERM + r"t\d+ is not free, but t\d+ is free and \d+\.",
    r"t\d+ \(bvshl .*\): t\d+ is not free, but t\d+ is free and \d+\.",
    r"t\d+ \(bvult (t\d+) (t\d+)\): \2 is not free, but \1 is free and [1-9]\d*\.",
    r"t\d+ \(bvult (t\d+) (t\d+)\): \1 is not free, but \2 is free and 0\.",
    r"t\d+ \(bvslt (t\d+) (t\d+)\): \2 is not free, but \1 is free and [1-9]\d*\.",
    r"t\d+ \(bvslt (t\d+) (t\d+)\): \1 is not free, but \2 is free and [1-9]\d*\.",
    r"t\d+ \(bvashr (t\d+) (t\d+)\): \2 is not free, but \1 is free and 0\.",
    r"t\d+ \(bvashr (t\d+) (t\d+)\): \2 is not free, but \1 is free and [1-9]\d*\.",
    r"(?:%st\d+ is not free,|   ) but the test t\d+ is free and picks t\d+, which is free\." % TERM,
    r"(?:%st\d+ is not free,|   ) but t\d+ and t\d+ are free and equal \(\d+\)\." % TERM,
    r"(?:%st\d+ is not free,|   ) but t\d+ and t\d+ are free and equal \((?:true|false)\)\." % TERM,
    r"%st\d+ is not free, but store t\d+ holds t\d+ there, which is free\." % TERM,
    r"    but store t\d+ holds t\d+ there, which is free\.",
    r"(?:%st\d+ is not free,|   ) but t\d+, which store t\d+ holds, is free and equal to what is beneath\." % TERM,
    r"(?:%st\d+ is not free,|   ) but the read comes to t\d+, which is not marked\." % TERM,
    r"(?:%st\d+ is not free,|   ) but both branches of choice t\d+ are free and equal there\." % TERM,
]
WHY = [r"    No value of one operand settles %s: both must be free\." % op for op in ("=", "bvadd", "bvsub")] + [
    r"    A free operand would have settled it\.",
    r"    t\d+ is free, but it is %s: a free %s would have settled it\." % (VALUE, VALUE),
    r"    t\d+ is %s, but not free: only a free %s settles it\." % (VALUE, VALUE),
    r"    t\d+ is %s, and not free: a free %s would have settled it\." % (VALUE, VALUE),
    r"    t\d+ is free, but it is \d+: a free \d+ or more would have settled it\.",
    r"    t\d+ is \d+, but not free: only a free \d+ or more settles it\.",
    r"    t\d+ is \d+, and not free: a free \d+ or more would have settled it\.",
    r"t\d+ \(bvult .*\): .*\n    t\d+ is \d+, but not free: only a free [1-9]\d* settles it\.",
    r"t\d+ \(bvult .*\): .*\n    .*\n    t\d+ is 0, but not free: only a free 0 settles it\.",
    r"t\d+ \(bvult .*\): .*\n    .* a free [1-9]\d* would have settled it\.\n    .* a free 0 would have settled it\.",
    r"t\d+ \(bvneg .*\): .*\n    A free operand would have settled it\.",
    r"t\d+ \(bvslt .*\): .*\n    t\d+ is \d+, but not free: only a free \d+ settles it\.",
    r"t\d+ \(bvslt .*\): .*\n    .*\n    t\d+ is \d+, but not free: only a free [1-9]\d* settles it\.",
    r"t\d+ \(bvslt .*\): .*\n    .* a free \d+ would have settled it\.\n    .* a free [1-9]\d* would have settled it\.",
    r"t\d+ \(bvashr .*\): .*\n    t\d+ is free, but it is [1-9]\d*: a free 0 or -1 would have settled it\.(?!\n    )",
    r"t\d+ \(bvashr .*\): .*\n    t\d+ is \d+, but not free: only a free 0 or -1 settles it\.(?!\n    )",
    r"t\d+ \(bvashr .*\): .*\n    t\d+ is [1-9]\d*, and not free: a free 0 or -1 would have settled it\.(?!\n    )",
    TERM + r"t\d+ is not free\.", TERM + r"t\d+ and t\d+ are not free\.",
    TERM + r"t\d+, the test, is not free\.", r"    Branches free and equal would have settled it:",
    r"    t\d+ is %s and (?:not )?free, t\d+ is %s and (?:not )?free\." % (VALUE, VALUE),
    TERM + r"t\d+, which the test picks, is not free\.", r"    t\d+, which the test picks, is not free\.",
    TERM + r"t\d+, the index, is not free\.",
    TERM + r"t\d+, the index of store t\d+, is not free\.", r"    t\d+, the index of store t\d+, is not free\.",
    TERM + r"t\d+, which store t\d+ holds there, is not free\.", r"    t\d+, which store t\d+ holds there, is not free\.",
    TERM + r"t\d+, the array beneath, is marked\.", r"    t\d+, the array beneath, is marked\.",
    r"t\d+ slot \d+: this input is marked\.",
]
SHEET = [r" *t\d+  slot \d+ +%s" % text for text in (
    "no line names it; the table does not mark it", "no line names it; the table marks it",
    r"marked by line 0 \(mark \d+\)", r"marked by line [1-9]\d* \(mark \d+ to \d+\)",
    r"kept by line 0 \(keep \d+ to \d+\)", r"kept by line [1-9]\d* \(keep \d+\)")]
FINISHED = ["; Finishing takes no sheet: C\\(rule\\) goes by the table's own marks\\.\nsheet\n[01] \\d+ \\d+",
            "sheet\n(?:\\d+ \\d+ \\d+\n)*\\d+(?: \\d+)?\nvalues.*"]
REPAIR = [
    r"If slot \d+ could be vouched for, the condition would be true", r"If slot \d+ could be vouched for, the condition would be true\.",
    r"If slots \d+ and \d+ could be vouched for, the condition would be true\.?",
    r"If slots \d+(?:, \d+)+ and \d+ could be vouched for, the condition would be true\.?",
    r"If slots \d+(?:, \d+)+ and \d+ could be vouched for,", r"If slots \d+(?:, \d+)+,",
    r"the condition would be true\.?", r"and the setting would pass\.",
]
VERDICTS = ["The setting passes: .*", "The setting does not pass: the rule is false whatever .*",
            "The setting does not pass: the marked inputs .*", "The setting does not pass: the rule is false, and .*"]
LINES = [".*: passes", ".*: does not pass: the rule is false", ".*: does not pass: the marked inputs may matter",
         ".*: does not pass: the rule is false and the marked inputs may matter"]
TREE = [r".*t\d+: see above", r".*t\d+: see below", r".*t\d+ store", r".*t\d+ ite", r".*: array, free", r".*: array, not free, marked",
        r".* constant = \w+, free", r".* = \w+, not free, marked"]
NOTES = [r".*:\d+: note: this line of the table has \d+ numbers, no multiple of six",
         r".*:\d+: note: this line of the table has 1 number, no multiple of six"]
VECTOR = r"\(_ BitVec \d+\)"
NAME = r"[tv]\d+"
TEXT = [r"\(declare-const v\d+ %s\)" % sort for sort in ("Bool", VECTOR, r"\(Array %s %s\)" % (VECTOR, VECTOR))] + [
    r"\(define-fun t\d+ \(\) Bool true\)", r"\(define-fun t\d+ \(\) Bool false\)", r"\(define-fun t\d+ \(\) %s #b[01]+\)" % VECTOR,
    r"\(assert t\d+\)", r"\(assert v\d+\)"] + [
    r"\(define-fun t\d+ \(\) .* \(%s(?: %s){%d}\)\)" % (word, NAME, operands) for words, operands in (
        ("not bvnot bvneg", 1),
        ("and or => = bvand bvor bvadd bvmul bvshl bvult bvsub bvslt bvashr select", 2),
        ("ite store", 3)) for word in words.split()] + [
    r"\(define-fun t\d+ \(\) \(Array .*\) \(ite(?: %s){3}\)\)" % NAME]

WANTED = [("judge", ".*:\\d+: refused %d at (?:term|cell|place|sheet line) \\d+: %s" % (number, reason))
          for number, reasons in REASONS.items() for reason in reasons]
WANTED += [("fault", ".*\\.case:" + fault) for fault in FAULTS]
WANTED += [("explain", line) for line in SETTLED + WHY + REPAIR + VERDICTS + SHEET]
WANTED += [("finish", lines) for lines in FINISHED]
WANTED += [("judge", line) for line in LINES + NOTES] + [("tree", line) for line in TREE]
WANTED += [("print", line) for line in TEXT]
COMPILED = [(where, line, re.compile("^" + line + "$", re.M)) for where, line in WANTED]
STATUSES = ["status %s %d" % (c, s) for c, ss in (("judge", (0, 1, 2, 3)), ("finish", (0, 2, 3)), ("graph", (0, 2, 3)),
                                                  ("evaluate", (0, 2, 3)), ("tree", (2, 3)), ("print", (0, 2, 3)),
                                                  ("print-finished", (0, 2, 3))) for s in ss]


def tally(counts, arguments, out, err, status):
    """Counts what occurred. No line is over 80 columns, but a refusal's, one with a file's name and those of a text."""
    counts["status %s %d" % (arguments[0], status)] += 1
    text, table = arguments[0] in ("print", "print-finished"), arguments == ("finish",)
    if text or table or arguments in (("judge",), ("explain",), ("tree",)):
        out, err = out.decode(), err.decode("latin-1")
        for line in out.split("\n"):
            assert text or table or ".case" in line or (len(line) <= 80 and not line.endswith(" ")), line
        for where, line, form in COMPILED:
            if where == ("print" if text else arguments[0]):
                counts[where + ": " + line] += len(form.findall(out))
            elif where == "fault" and arguments == ("judge",):
                counts[where + ": " + line] += len(form.findall(err))


def never(counts):
    wanted = [where + ": " + line for where, line in WANTED] + STATUSES + ["graphs", "judged"]
    return [w for w in wanted if not counts[w]]
