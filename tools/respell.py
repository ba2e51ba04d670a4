#!/usr/bin/env python3
"""Respells the repository's own antt names: words in snake case, types in camel case.

usage: python3 tools/respell.py [--dry]     at the top of the repository, once, after port.py

A name is the repository's own where a file of specs/ or proofs/ defines it: at the head of a signature, as a field of a
record or as a constructor. Names of goals and of steps, which the check makes from the source, are left as they are: these
are the names that a file of answers, invariants or choices defines as `NAME : goal.NAME`. Functions of src/, strings and
inputs keep their names. In documents only what stands between backticks is respelled.
"""

import os
import re
import sys

ANSWERS = {"Answers.antt", "Invariants.antt", "Choices.antt", "Proof.antt"}
WORD = r"[^\s:(){}.,;`\[\]\"λ→]+"
HEAD = re.compile(rf"^(?:(?:abbrev|unfoldable|pub|record|data|ruleset|mutual)\s+)*({WORD})\s*[:({{]")
INNER = re.compile(rf"^\s+(?:(?:abbrev|unfoldable|pub|record|data)\s+)+({WORD})\s*[:({{]")
FIELD = re.compile(rf"^\s+(?:pub )?({WORD})\s*:[^:]")
ALIAS = re.compile(rf"\bas ({WORD})")
GOAL = re.compile(rf"^(?:(?:abbrev|pub)\s+)*({WORD})\s*:\s*(?:\(.*\)\s*→\s*)?goal\.")
TOKEN = re.compile(r"(?<![\w'?⊎≡-])[A-Za-zℕ][\w'?]*(?:-[\w'?]+)+(?![\w'?-])")
ODD = {"getD-in": "get_or_in", "site-word": "word_for_site"}


def files(*endings):
    for top in ("crates", "docs", "misuse", "hosts"):
        for folder, dirs, names in os.walk(top):
            dirs[:] = sorted(d for d in dirs if d not in ("out", "target"))
            for name in sorted(names):
                if name.endswith(endings):
                    yield os.path.join(folder, name)
    if "README.md".endswith(endings):
        yield "README.md"


def aliases(line):
    return {name for name in ALIAS.findall(line) if "-" in name} if line.startswith(("use ", "ghost use ")) else set()


def defined():
    own, goals = set(), set()
    for path in files(".rt"):
        with open(path, encoding="utf-8") as f:
            for line in f:
                own |= aliases(line)
    for path in files(".antt"):
        answers = os.path.basename(path) in ANSWERS
        with open(path, encoding="utf-8") as f:
            for line in f:
                own |= aliases(line)
                goal = GOAL.match(line)
                if goal:
                    goals.add(goal.group(1))
                    continue
                found = HEAD.match(line) or INNER.match(line) or (None if answers else FIELD.match(line))
                if found and "-" in found.group(1) and not line.startswith(("use ", "--", "mod ")):
                    own.add(found.group(1))
    return own - goals


def respelled(name):
    if name in ODD:
        return ODD[name]
    if name[0].isupper():
        return "".join(part[:1].upper() + part[1:] for part in name.split("-"))
    return name.replace("-", "_")


def turned(text, new):
    return TOKEN.sub(lambda m: new.get(m.group(0), m.group(0)), text)


def main():
    own = defined()
    new = {name: respelled(name) for name in own if TOKEN.fullmatch(name)}
    for name in sorted(own - set(new)):
        print("not turned:", name)
    back = {}
    for old, to in sorted(new.items()):
        if to in back:
            print(f"fall together: {old} and {back[to]} as {to}")
        back[to] = old
    seen = {}
    for path in files(".antt", ".rt"):
        with open(path, encoding="utf-8") as f:
            for token in set(re.findall(r"[A-Za-z][\w'?]*", f.read())):
                if token in back:
                    seen.setdefault(token, []).append(path)
    for token, paths in sorted(seen.items()):
        print(f"there already: {token} ({back[token]}) in {' '.join(paths)}")
    if "--dry" in sys.argv:
        return
    for path in files(".antt", ".rt", ".edit", ".slip"):
        rewrite(path, lambda text: turned(text, new))
    for path in files(".md"):
        rewrite(path, lambda text: re.sub(r"`[^`\n]+`", lambda m: turned(m.group(0), new), text))


def rewrite(path, turn):
    with open(path, encoding="utf-8") as f:
        text = f.read()
    to = turn(text)
    if to != text:
        with open(path, "w", encoding="utf-8") as f:
            f.write(to)


main()
