"""The commands: what is printed of each file, on which output, and the status."""
import json
import os
import sys

from admission import Refused, admit
from casefile import Misread, read_case
from drawing import graph, tree
from explaining import evaluate_rows, explain, repair, way_down
from finishing import Finished, finish
from judging import Setting
from printing import text as solver_text
from words import BOOL, NAMES, has_condition, is_array, operands, smt_sort, truth

OPTIONS = {"judge": ["--json"], "explain": ["--json"], "tree": ["--color", "--no-color"],
           "evaluate": [], "finish": [], "graph": [], "print": [], "print-finished": []}
FOR_SOLVERS = ["print", "print-finished"]
SINGLE = ["finish", "graph"] + FOR_SOLVERS
WORST = [0, 1, 3, 2]
USAGE = ("usage: ./hiranthok judge|explain|evaluate|tree FILE..., ./hiranthok graph|finish|print|print-finished FILE, "
         "or ./hiranthok help")


# ---- one file ----

def passes(j):
    return j.rule() and j.rule_free()


def reason(j):
    """Why a setting does not pass."""
    reasons = ([] if j.rule() else ["the rule is false"]) + ([] if j.rule_free() else ["the marked inputs may matter"])
    return " and ".join(reasons)


def steps_left(j):
    return ["steps      %d" % j.steps, "left       %d" % j.left]


def judge(j, several):
    if several:
        return [": passes" if passes(j) else ": does not pass: " + reason(j)]
    return ["rule       " + truth(j.rule()), "condition  " + truth(j.rule_free()),
            "passes     " + ("yes" if passes(j) else "no: " + reason(j))] + steps_left(j)


def lines_of(command, case, options, several):
    """The lines that a command prints of a case, and its status."""
    if command == "finish":
        return finish(case), 0
    if command in FOR_SOLVERS:
        return solver_text(admit(case, 80000).terms if command == "print" else Finished(case).terms), 0
    if command == "evaluate":
        j = Setting(case, 80000, judged=False)
        return evaluate_rows(j) + steps_left(j), 0
    j = Setting(case)
    if command == "tree":
        return tree(j, "--color" in options and options[-1] == "--color"), 0
    if command == "graph":
        return graph(j), 0
    return (judge(j, several) if command == "judge" else explain(j)), 0 if passes(j) else 1


# ---- JSON ----

def json_name(name):
    out = b""
    for b in name:
        out += b"\\" + bytes([b]) if b in b'"\\' else b"\\u%04x" % b if b < 32 else bytes([b])
    return out


def json_term(j, t, way):
    term = j.terms[t]
    sort, value = term[1:3], j.v[t]
    out = {"term": t, "op": term[0], "operator": NAMES[term[0]], "sort": smt_sort(sort),
           "operands": list(operands(term))}
    if term[0] == 1:
        out.update(slot=term[3], marked=j.marked(term))
        if j.marks.line[term[3]] is not None:
            out["sheet_line"] = j.marks.line[term[3]]
    out["value"] = None if is_array(sort) else bool(value) if sort == BOOL else value
    out["free"] = bool(j.free[t]) if has_condition(term) else None
    out["way"] = t in way
    return out


def json_line(command, name, case):
    try:
        j = Setting(case)
        status = 0 if passes(j) else 1
        out = {"answer": "judged", "rule": j.rule(), "condition": j.rule_free(), "passes": passes(j),
               "steps": j.steps, "left": j.left}
        if command == "explain":
            way = set(way_down(j))
            out["terms"] = [json_term(j, t, way) for t in range(len(j.terms))]
            out["repair"] = repair(j)
    except Refused as e:
        status = 3
        out = {"answer": "refused", "number": e.number, "place": e.place, "line": e.line, "reason": e.reason}
    rest = json.dumps(out, separators=(",", ":"))[1:].encode()
    return b'{"file":"%s",%s\n' % (json_name(name), rest), status


# ---- files ----

def refusal(name, case, e):
    out = b"%s:%s\n" % (name, e.told().encode())
    odd = case.odd_line() if e.number <= 10 else None
    if odd:
        numbers = "1 number" if odd[1] == 1 else "%d numbers" % odd[1]
        out += b"%s:%d: note: this line of the table has %s, no multiple of six\n" % (name, odd[0], numbers.encode())
    return out


def answer(command, name, text, options, several):
    """What is printed of one file, and the status; a Misread where it is no case."""
    case = read_case(text)
    if "--json" in options:
        return json_line(command, name, case)
    try:
        lines, status = lines_of(command, case, options, several)
        ahead = name if command == "judge" and several else b""
        return ahead + "".join(line + "\n" for line in lines).encode(), status
    except Refused as e:
        return refusal(name, case, e), 3


def respond(command, options, files):
    """(standard output, standard error, status) for files, each a name and its text, or an OSError in its place."""
    out, err, statuses = [], [], [0]
    several = len(files) > 1
    headed = several and command not in ("judge",) and "--json" not in options
    for name, text in files:
        if isinstance(text, OSError):
            err.append(b"%s: %s\n" % (name, os.strerror(text.errno).encode()))
            statuses.append(2)
            continue
        try:
            printed, status = answer(command, name, text, options, several)
        except Misread as e:
            err.append(b"%s:%s\n" % (name, e.told()))
            statuses.append(2)
            continue
        head = b"==> %s <==\n" % name if headed else b""
        refused_apart = status == 3 and command in FOR_SOLVERS      # standard output is another program's input
        (err if refused_apart else out).append((b"\n" if headed and out else b"") + head + printed)
        statuses.append(status)
    return b"".join(out), b"".join(err), max(statuses, key=WORST.index)


# ---- the command line ----

HELP = """./hiranthok judges case files.

  judge FILE...      rule, condition, passes or not and why; steps and allowance left
  explain FILE...    every term; the verdict; what settled a term; why a condition is false
  evaluate FILE...   every term with its value
  tree FILE...       the rule as a tree
  graph FILE         the rule for Graphviz
  finish FILE        the finished table as a case file
  print FILE         the table as SMT-LIB text
  print-finished FILE
                     the finished table as SMT-LIB text
  help               this text

A file has the parts table, values, cells and allowance, and may have a part sheet. - is standard input.
"""


def parse(arguments):
    """(command, options, names), or None for a command line that is none."""
    if not arguments or arguments[0] not in OPTIONS:
        return ("help", [], []) if arguments == ["help"] else None
    command, options, names, ended = arguments[0], [], [], False
    for a in arguments[1:]:
        if a == "--" and not ended:
            ended = True
        elif a.startswith("-") and a != "-" and not ended:
            options.append(a)
        else:
            names.append(a)
    if not names or (command in SINGLE and len(names) > 1) or any(o not in OPTIONS[command] for o in options):
        return None
    return command, options, names


def content(name):
    try:
        if name == "-":
            return sys.stdin.buffer.read()
        with open(name, "rb") as f:
            return f.read()
    except OSError as e:
        return e


def write_all(fd, data):
    while data:
        data = data[os.write(fd, data):]


def main(arguments):
    asked = parse(arguments)
    if asked is None:
        out, err, status = b"", USAGE.encode() + b"\n", 2
    elif asked[0] == "help":
        out, err, status = HELP.encode(), b"", 0
    else:
        command, options, names = asked
        out, err, status = respond(command, options, [(os.fsencode(n), content(n)) for n in names])
    try:
        write_all(1, out)
    except OSError as e:
        err, status = err + b"standard output: %s\n" % os.strerror(e.errno).encode(), 2
    write_all(2, err)
    return status
