#!/usr/bin/env python3
"""Brings this repository's own definitions, lemmas, fields and constructors to the kit's spelling: words in snake case, types in camel case.

usage: python3 tools/snake_case.py      at the top, once, right after the kit's port.py

It reads the names that crates/*/specs and crates/*/proofs declare, and writes them anew wherever they stand: in .antt and .rt files, in must-fail
edits and, between back quotes, in README.md and docs/*.md. Names that a proof's walk through the code takes from the check (`x : tie.Need-x`) are
no names of ours. It stops, and writes nothing, where two names would fall together or where a library's name has the same spelling.
"""

import os
import re
import sys

OWN = {"answers", "base", "capi", "columns", "declare", "discovery", "eventlog", "fields", "findrules", "history", "report", "watcher"}
NAME = r"[^\s(){}\[\];,.:λ→`\"|]+"
DEFINED = re.compile(rf"^(?:abbrev |unfoldable |pub |data |record |ruleset )*({NAME}) *(?::|\(|\{{)(.*)$")
FIELD = re.compile(rf"^ +(?:pub |abbrev |unfoldable )*({NAME}) :(?: |$)")
ALIAS = re.compile(rf" as ({NAME})(?=[,}}])")
TOKEN = re.compile(NAME)
USE = re.compile(r"^\s*(?:ghost |pub )*use ([^\s{]+?)\.\{([^}]*)\}", re.M)
# the one fact that had a name in small letters
ACCEPTED = re.compile(r"(?<![\w.-])accepted(?= \(survey_of| surveyed$| answer$| : CountAnswer| \(CountAnswer)|(?<=survey_of, )accepted(?=[,}])", re.M)


def files(*endings):
    for folder, dirs, names in os.walk("crates"):
        dirs[:] = sorted(d for d in dirs if d != "out")
        for name in sorted(names):
            if name.endswith(endings):
                yield os.path.join(folder, name)


def read(path):
    with open(path, encoding="utf-8") as f:
        return f.read()


def new_name(name):
    """`next-state` is next_state, `None-fail` is NoneFail, `Above-1` is Above1; a dash at an end or beside another sign stays."""
    parts = name.split("-")
    if len(parts) == 1 or not all(re.fullmatch(r"[\w']+", p) for p in parts):
        return name
    if name[0].isupper():
        return "".join(p[:1].upper() + p[1:] for p in parts)
    return "_".join(parts)


def own_names():
    found = set()
    for path in files(".rt"):
        for line in read(path).split("\n"):
            found |= {a for a in ALIAS.findall(line) if line.startswith("ghost use ")}
    for path in files(".antt"):
        for line in read(path).split("\n"):
            if line.lstrip().startswith("--"):
                continue
            found |= {a for a in ALIAS.findall(line) if line.startswith("use ")}
            m = DEFINED.match(line)
            if m and not m.group(2).lstrip().startswith(("tie.", "invariants.")):
                found.add(m.group(1))
            m = FIELD.match(line)
            if m and not re.match(r"\s*(let|in)\b", line):
                found.add(m.group(1))
    return found


def turned(text, after):
    return TOKEN.sub(lambda m: new_name(m.group(0)) if new_name(m.group(0)) in after else m.group(0), text)


def main():
    own = own_names() | {"a-occurs", "b-occurs"}
    turn = {n: new_name(n) for n in own if new_name(n) != n}
    turn["Goes_on"] = "GoesOn"
    library = set()
    for path in files(".antt", ".rt"):
        for where, names in USE.findall(read(path)):
            parts = where.split(".")
            if not (parts[0] == "Rattle" and parts[1] in OWN):
                library |= {n.split(" as ")[0].strip() for n in names.split(",")}
    bad = sorted(set(turn) & library)
    there = own | library
    bad += sorted(f"{n} and {m}" for n, m in turn.items() if m in there)
    if bad:
        print("fall together: " + ", ".join(bad))
        return 1
    after = {turn.get(n, n) for n in own}
    for path in files(".antt", ".rt", ".edit"):
        text = read(path)
        said = TOKEN.sub(lambda m: turn.get(m.group(0), m.group(0)), text)
        if path.endswith(".edit"):
            # the names that port.py has turned in the crates
            said = turned(said, after)
        if path.startswith("crates/columns/"):
            said = ACCEPTED.sub("IsAccepted", said)
        if said != text:
            with open(path, "w", encoding="utf-8") as f:
                f.write(said)
    pages = ["README.md"] + [os.path.join("docs", p) for p in sorted(os.listdir("docs")) if p.endswith(".md") and not p.startswith("PORT")]
    for path in pages:
        text = read(path)
        said = re.sub(r"`[^`\n]+`", lambda q: turned(TOKEN.sub(lambda m: turn.get(m.group(0), m.group(0)), q.group(0)), after), text)
        if said != text:
            with open(path, "w", encoding="utf-8") as f:
                f.write(said)
    print(f"{len(turn)} names")
    return 0


if __name__ == "__main__":
    sys.exit(main())
