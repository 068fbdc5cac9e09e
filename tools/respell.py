#!/usr/bin/env python3
"""Spells this repository's own definitions, lemmas, fields and local names as today's Rattle does: in snake case, and a
function into Type in upper camel case. A dash stays behind a type at the head of a name, as in Shaped-of.

usage: respell.py [FOLDER]      FOLDER is the top of the repository, by default the one that holds this script

It goes once over the repository as /opt/rattle/port/port.py leaves it, and prints each name with its new spelling. Names
that a library declares stay in the files that import them, and so do the names that Rattle makes of the source: what a
proof file answers, and what stands behind goal., c., l., w. or g. there. In .rt files and must-fail edits it turns names
with a dash, which Rust has none of, and those of TYPES.
"""

import collections
import os
import re
import sys

NAME = r"[^\s(){}.;,@\"«»]+"
TYPES = {"performs": "PerformsEvent", "two_digits": "TwoDigits", "record-tag": "TagOfRecord"}
MADE = re.compile(r"(?:^|[^\w'])(?:goal|c|l|w|g)$")
ANSWERS = re.compile(r"/proofs/(?:.*/)?(?:Answers|Invariants|Proof)\.antt$")
COMMENT = re.compile(r"(?m)(?:^|(?<=\s))--.*$")


def files(top, ending):
    for folder, dirs, names in os.walk(os.path.join(top, "crates")):
        dirs[:] = sorted(d for d in dirs if d not in ("out", ".git"))
        for n in sorted(names):
            if n.endswith(ending):
                yield os.path.join(folder, n)


def read(path):
    with open(path, encoding="utf-8") as f:
        return f.read()


def uses(text):
    """What each use line brings in: whose it is, what the file calls it, and whether by a name that the line gives."""
    line = r"(?m)^\s*(?:pub )?(?:ghost )?use "
    for path, items in re.findall(line + r"([^\s{;]+)\.\{([^}]*)\}", text):
        for item in items.split(","):
            name, given, alias = item.strip().partition(" as ")
            yield path, alias.strip() if given else name, bool(given)
    for path, alias in re.findall(line + rf"([^\s{{;]+) as ({NAME})", text):
        yield path, alias, True


def is_own(path, own):
    parts = path.split(".")
    return parts[0] == "Rattle" and parts[1] in own


def declared(text):
    """The names that a file declares: items, fields, parameters, and what let and λ bind."""
    body = re.sub(r"(?m)^\s*(?:pub )?use .*$", "", COMMENT.sub("", text))
    found, answers = set(), set()
    marks = r"(?:(?:abbrev|unfoldable|pattern|pub|axiom|where|let|record) )*"
    for name, sign, rest in re.findall(rf"(?m)^\s*{marks}({NAME}) +([:=])(?= )\s*(.*)", body):
        (answers if sign == ":" and rest.startswith("goal.") else found).add(name)
    found |= set(re.findall(rf"(?m)^\s*(?:(?:pub|abbrev) )*(?:record|data) (?:pub )?({NAME})", body))
    for names in re.findall(rf"(?m)^\s+(?:pub )?((?:{NAME} )+{NAME}) : ", body):
        found |= set(names.split())
    for names in re.findall(rf"[({{]((?:{NAME} )+): ", body):
        found |= set(names.split())
    found |= set(re.findall(rf"(?:let|;|in) ({NAME}) (?:=|:) ", body))
    for names in re.findall(rf"λ ((?:{NAME} ?)+)\.", body):
        found |= set(names.split())
    return found, answers


def spelled(name):
    if name in TYPES:
        return TYPES[name]
    head, dash, rest = name.replace("′", "'").partition("-")
    if re.match(r"[A-Z].*[a-z]", head):
        return head + dash + rest.replace("-", "_")
    return (head + dash + rest).replace("-", "_")


def turn(text, table, stay, answers):
    """The text with each word of the table turned, but those that stay and, in a proof of a function, those that Rattle makes."""
    out, at = [], 0
    for m in re.finditer(NAME, text):
        word = m.group()
        if word not in table or word in stay:
            continue
        if word in TYPES:
            line = text[text.rfind("\n", 0, m.start()) + 1 : m.start()]
            if "--" in line or "//" in line or line.endswith("ensures ") or text[m.end() :].startswith((" = ", " {")):
                continue
        if answers is not None:
            before = text[max(0, m.start() - 40) : m.start()]
            if word in answers or before.endswith(".") and MADE.search(before[:-1]):
                continue
        out.append(text[at : m.start()] + table[word])
        at = m.end()
    return "".join(out) + text[at:]


def main():
    top = os.path.realpath(sys.argv[1] if len(sys.argv) > 1 else os.path.join(os.path.dirname(__file__), ".."))
    own = set(os.listdir(os.path.join(top, "crates")))
    names, made = set(), {}
    for path in files(top, ".antt"):
        found, made[path] = declared(read(path))
        names |= found
    for path in [*files(top, ".antt"), *files(top, ".rt")]:
        names |= {name for of, name, given in uses(read(path)) if given and is_own(of, own)}
    table = {}
    for n in names:
        if n in TYPES or "′" in n or ("-" in n.strip("-") and re.search("[A-Za-z]", n) and not re.match(r"[\d-]", n)):
            if spelled(n) != n:
                table[n] = spelled(n)
    labels = set()
    for path in files(top, ".rt"):
        labels |= set(re.findall(r"\b(?:ensures|requires) (\w+_\w+) \{", read(path)))
    for label in labels:
        table.setdefault(label.replace("_", "-"), label)
    met = collections.Counter(list(table.values()) + [n for n in names if n not in table and n not in labels])
    for n, new in sorted(table.items()):
        if met[new] > 1:
            print(f"respell: {n} and {new} would fall together", file=sys.stderr)
    for path in [*files(top, ".antt"), *files(top, ".rt"), *files(top, ".edit")]:
        text = read(path)
        stay = {name for of, name, _ in uses(text) if not is_own(of, own)}
        if path.endswith(".antt"):
            stay -= declared(text)[0]
        answers = made.get(path, set()) if ANSWERS.search(path) else None
        words = table
        if not path.endswith(".antt"):
            words = {n: s for n, s in table.items() if "-" in n or n in TYPES}
        new = turn(text, words, stay, answers)
        if new != text:
            with open(path, "w", encoding="utf-8") as f:
                f.write(new)
    for n in sorted(table):
        print(f"{n}\t{table[n]}")


if __name__ == "__main__":
    main()
