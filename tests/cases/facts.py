#!/usr/bin/env python3
"""Holds what --json printed to what explain printed of the same files.

  tests/cases/facts.py EXPLAIN JUDGE_JSON EXPLAIN_JSON      outputs of explain, judge --json and explain --json of several files
"""
import json
import re
import sys

REFUSED = re.compile(r"(.*):(\d+): refused (\d+) at (?:term|cell|place|sheet line) (\d+): (.*)")
VERDICT = re.compile(r"The rule, t\d+, is (true|false)\. Its condition is (true|false)\.")
STEPS = re.compile(r"Steps (\d+), left (\d+)\.")
SORTS = [(re.compile(r"^Bool$"), "Bool"), (re.compile(r"^BitVec (\d+)$"), r"(_ BitVec \1)"),
         (re.compile(r"^Array (\d+) (\d+)$"), r"(Array (_ BitVec \1) (_ BitVec \2))")]
ROW = re.compile(r" *t(\d+)  (.*?) +(Bool|BitVec \d+|Array \d+ \d+) +(?:(marked|-) +)?(\S+)  (\S+)$")
DECIDED = re.compile(r" *t(\d+)  slot \d+ +(?:marked|kept) by line (\d+) \((?:mark|keep) \d+(?: to \d+)?\)")
TRUTH = {"true": True, "false": False, "-": None}


def answers(text):
    """(file name, lines) of each answer of a call with several files."""
    found = []
    for line in text.split("\n"):
        head = re.fullmatch(r"==> (.*) <==", line)
        if head:
            found.append((head.group(1), []))
        elif found:
            found[-1][1].append(line)
    return found


def smt(sort):
    return next(form.sub(to, sort) for form, to in SORTS if form.match(sort))


def deciding(lines):
    """The line of the sheet that decides for a variable, by its term."""
    section = "\n".join(lines).partition("\nMarks under the sheet:\n")[2].partition("\n\n")[0].split("\n")
    return {int(found.group(1)): int(found.group(2)) for found in map(DECIDED.fullmatch, section) if found}


def term_of(line, way, decided):
    """The object that a row stands for."""
    number, operator, sort, mark, value, condition = ROW.fullmatch(line).groups()
    inside = re.fullmatch(r"\((\S+) (t.*)\)", operator)
    slot = re.fullmatch(r"slot (\d+)", operator)
    name = inside.group(1) if inside else "variable" if slot else "constant"
    out = {"term": int(number), "operator": name, "sort": smt(sort), "value": TRUTH.get(value),
           "operands": [int(x[1:]) for x in inside.group(2).split()] if inside else [],
           "free": TRUTH[condition], "way": int(number) in way}
    if value not in TRUTH:
        out["value"] = int(value)
    if slot:
        out.update(slot=int(slot.group(1)), marked=mark == "marked")
        if int(number) in decided:
            out["sheet_line"] = decided[int(number)]
    return out


def repair_of(lines):
    text = " ".join(lines)
    slots = re.search(r"If slots? (.*?) could be vouched for", text)
    return [int(x) for x in re.findall(r"\d+", slots.group(1))] if slots else []


def facts(name, lines):
    """The objects that judge --json and explain --json should have printed."""
    refused = REFUSED.fullmatch(lines[0])
    if refused:
        one = {"file": name, "answer": "refused", "number": int(refused.group(3)), "place": int(refused.group(4)),
               "line": int(refused.group(2)), "reason": refused.group(5)}
        return one, one
    rule, condition = [TRUTH[x] for x in VERDICT.search("\n".join(lines)).groups()]
    steps, left = map(int, STEPS.search("\n".join(lines)).groups())
    judged = {"file": name, "answer": "judged", "rule": rule, "condition": condition, "passes": rule and condition,
              "steps": steps, "left": left}
    why = "\n".join(lines).partition("\nWhy the condition is false")[2]
    way = {int(x) for x in re.findall(r"^t(\d+) ", why, re.M)}
    decided = deciding(lines)
    rows = [term_of(line, way, decided) for line in lines[1:lines.index("")]]
    return judged, dict(judged, terms=rows, repair=repair_of(lines[lines.index(""):]))


def without_op(printed):
    """The op is not in the text: it is held to the operator's name."""
    names = ("constant variable not and or => = ite bvnot bvand bvor bvadd bvmul bvshl bvult select store "
             "bvneg bvsub bvslt bvashr").split()
    for term in printed.get("terms", []):
        assert names[term.pop("op")] == term["operator"], term
    return printed


def main(explained, judged_json, explained_json):
    with open(explained) as f, open(judged_json) as g, open(explained_json) as h:
        expected = [facts(name, lines) for name, lines in answers(f.read())]
        got = list(zip(map(json.loads, g), map(without_op, map(json.loads, h))))
    wrong = [e[0]["file"] for e, p in zip(expected, got) if e != p]
    if wrong or len(expected) != len(got) or not expected:
        print("%d answers, %d objects; not the same facts: %s" % (len(expected), len(got), " ".join(wrong)))
        return 1
    return 0


if __name__ == "__main__":
    sys.exit(main(*sys.argv[1:]))
