#!/usr/bin/env python3
"""Brings the names of definitions, record fields, constructors and lemmas to one spelling: words in snake case; a dash joins
the names of two definitions. Run once, at the top of the repository, after port.py. With --list it prints the names and writes nothing.

What is renamed: what specs/ and the modules of proofs/ declare with a small first letter. What stays: types and modules; names of
the sources (functions, variants, parameters), since they are declared elsewhere; names that another library declares; text in src/
outside clauses and ghost items, since no name of the code has a capital inside or a dash."""
import collections
import os
import re
import sys

ROOT = "crates"
NAME = r"[a-z][A-Za-z0-9_'₀-₉\-]*"
TOKEN = re.compile(r"[A-Za-z0-9_'₀-₉\-]*[A-Za-z0-9_'₀-₉]")
# Variables of modules and lemmas, which no line declares.
VARIABLES = "operationCondition isKeep isMark assertedTerms turnAt readSize isArray".split()
STD = set("length append take drop set get_or map filter sum cond not and or add sub mul div mod suc pred zero cons nil eqb leb ltb eq lt le min max pow"
          " all any fold".split())


def files():
    for folder, dirs, names in os.walk(ROOT):
        dirs[:] = sorted(d for d in dirs if d not in ("out", "target"))
        for n in sorted(names):
            yield os.path.join(folder, n)


def is_module(path):
    """A file of specs/, or a file of lemmas: no file of one function's proof."""
    return path.endswith(".antt") and ("/specs/" in path or os.path.basename(path) not in ("Proof.antt", "Answers.antt", "Invariants.antt"))


def declared(text):
    """The names that a module declares at its top, and the fields and constructors of its records and data."""
    tops, inner = set(), set()
    block, section = False, False
    for line in text.split("\n"):
        if line and not line.startswith(" "):
            block = bool(re.match(r"(?:pub )?(?:record|data) ", line))
            section = section and not block or bool(re.match(r"(?:pub |unfoldable |abbrev )*(?:module|mutual)\b", line))
        m = re.match(rf"(\s*)((?:abbrev |unfoldable )?)((?:pub )?)({NAME}) :(?: |$)", line)
        if m and (not m[1] or m[2] or section and not block):
            tops.add(m[4])
        m = re.match(rf"\s+(?:pub )?({NAME}(?: {NAME})*) :(?: |$)", line)
        if m and (block or section):
            inner.update(m[1].split())
    return tops, inner


def foreign(text):
    """The names that a file takes from other libraries."""
    found = set()
    for m in re.finditer(r"^(?:ghost )?use ([A-Za-z_.]+)\.\{([^}]*)\}", text, re.M):
        if not m[1].startswith("Rattle.") or m[1].startswith("Rattle.std"):
            found.update(TOKEN.findall(m[2]))
    return found


def snake(word):
    word = re.sub(r"([a-z0-9])([A-Z])", r"\1_\2", word)
    return word.lower()


def respelled(name, known, types):
    parts = name.split("-")
    parts = [p if p in types else snake(p) for p in parts]
    out = parts[0]
    for i in range(1, len(parts)):
        rest = "_".join(parts[i:])
        left = out.replace("-", "_")
        joins = (parts[i] in types or parts[i] in STD or any(rest == k or rest.startswith(k + "_") for k in known if k.count("_") >= 0 and len(k) > 2)) and (
            left in known or parts[i - 1] in known or parts[i - 1] in STD or parts[i - 1] in types)
        out += ("-" if joins else "_") + parts[i]
    return out


def main():
    texts = {p: open(p, encoding="utf-8").read() for p in files() if p.endswith((".antt", ".rt", ".edit"))}
    tops, inner, others, types, spec_names = set(), set(), set(), set(), set()
    for p, t in texts.items():
        if p.endswith((".antt", ".rt")):
            others |= foreign(t)
        if p.endswith(".antt"):
            types.update(re.findall(r"^(?:pub )?(?:record|data) ([A-Z]\w*)", t, re.M))
            types.update(re.findall(r"^abbrev (?:pub )?([A-Z]\w*) :", t, re.M))
        if is_module(p):
            a, b = declared(t)
            tops |= a
            inner |= b
            if "/specs/" in p:
                spec_names |= a
    known = {snake(n) for n in spec_names if "-" not in n}
    taken = tops | inner | others
    renamed = {n: snake(n) for n in VARIABLES}
    for n in sorted((tops | inner) - others):
        # names of the form term-at.. that Rattle makes stay
        if not ("-" in n or re.search(r"[a-z0-9][A-Z]", n)):
            continue
        new = respelled(n, known, types)
        if n in inner and n not in tops:
            new = new.replace("-", "_")
        if new != n:
            renamed[n] = new
    back = collections.defaultdict(list)
    for n, m in renamed.items():
        back[m].append(n)
    clash = [(m, ns) for m, ns in back.items() if len(ns) > 1 or m in taken]
    if "--list" in sys.argv:
        for n, m in renamed.items():
            print(n, m)
        print("fall together:", clash, file=sys.stderr)
        return 0
    # Where a definition and a lemma come to one name, the lemma gets `_lem`; so does a lemma that had the name before, where some file has both.
    tokens = {p: set(TOKEN.findall(t)) for p, t in texts.items()}
    for m, ns in clash:
        lemmas = [n for n in ns if "-" in n]
        if len(ns) > 1:
            for n in lemmas if len(lemmas) < len(ns) else lemmas[1:]:
                renamed[n] = m + "_lem"
        elif m in taken and any(ns[0] in t and m in t for t in tokens.values()):
            if lemmas:
                renamed[ns[0]] = m + "_lem"
            elif m in tops and m not in spec_names:
                print("look: both in one file:", ns, m)
                renamed[m] = m + "_lem"
    # Such a name may be a function's too: it stays in src/ and where a path or a step of a proof has it.
    moved = {m for m in renamed if m in renamed and "_" in m and "-" not in m and not re.search(r"[A-Z]", m)}

    def keeps(p, t, m):
        return p.endswith(".rt") or t[m.start() - 1] == "." or t[m.end():m.end() + 1] == "."

    again = collections.Counter(renamed.values())
    print("still together:", [n for n, k in again.items() if k > 1])
    for p, t in texts.items():
        new = TOKEN.sub(lambda m: m[0] if m[0] in moved and keeps(p, t, m) else renamed.get(m[0], m[0]), t)
        if new != t:
            open(p, "w", encoding="utf-8").write(new)
    for folder in [".", "docs", "docs/landings", "examples", "tests", "bench"]:
        for n in sorted(os.listdir(folder)) if os.path.isdir(folder) else []:
            p = os.path.join(folder, n)
            if n.endswith(".md"):
                t = open(p, encoding="utf-8").read()
                new = re.sub(r"`[^`\n]+`", lambda q: TOKEN.sub(lambda m: renamed.get(m[0], m[0]), q[0]) if re.search(r"[A-Za-z]", q[0]) else q[0], t)
                if new != t:
                    open(p, "w", encoding="utf-8").write(new)
    print(len(renamed), "names respelled;", len(clash), "would fall together")
    return 0


if __name__ == "__main__":
    raise SystemExit(main())
