#!/usr/bin/env python3
"""Lists the places in src/ where an older form of the language may still stand, by the points of docs/DESIGN-PASS.md.

    tools/places.py [FOLDER]     counts, a line for each pattern
    tools/places.py [FOLDER] -v  and each place

FOLDER is a checkout (default: this one). What is listed is a place to look, not a fault: docs/DESIGN-PASS.md says of each
kept one why it is kept.
"""
import collections
import glob
import os
import re
import sys

PATTERNS = [
    ("1", "an enum of its own with a refusal for a variant", r"^\s+(Refused|Ok|Err|Some|None)(\(\w+\))?,$"),
    ("1", "a flag in a struct, beside values", r"^\s+(pub(\(crate\))? )?is_\w+: bool,$"),
    ("1", "an arm that hands an Option or a Result on by hand",
     r"^\s+\(?(Ok|Err|Some|None)\b.* => (Ok|Err|Some|None|true|false|no_path|SiteMask|\*?[a-z_]+,$)"),
    ("1", "a kind told by its number", r"kind_of\([^)]*\)+ (==|<|>)|kind < \d|\d < kind|match kind_of|tag: u32|\.tag != "),
    ("1", "no place told by the length", r"^    words\.len\(\)$"),
    ("1", "a function that bears a law and answers a number", r"^    0$"),
    ("3", "a loop that counts", r"^\s*(while |loop\b|for .* in .*\.\.)"),
    ("4", "an arm that prints or numbers a variant", r"^\s+[A-Z]\w+::\w+ =>\s*(\"|\d+,|$)"),
    ("4", "an arm that names a variant by a number or a text", r"^\s+(\d+|\"\w+\") => (Some\(|Kind|Call)"),
    ("4", "a number cut to a byte by hand", r"min\(255\) as u8|< 256 \{"),
    ("4", "an answer turned into a number for a test", r"1000 \+ |=> refusal\.number\(\)"),
    ("6", "a length beside an array", r"^\s+(pub(\(crate\))? )?(len|counts|ends): (usize|\[usize; 6\]),$"),
    ("7", "a switch on a name or a code", r"match (\w+\.)?(name|code) \{|if self\.is_strip|name == \""),
]


def files(root):
    return sorted(glob.glob(os.path.join(root, "crates/*/src/*.rt")))


def short(root, path):
    return os.path.relpath(path, root)


def by_pattern(root, pattern):
    rule = re.compile(pattern)
    for path in files(root):
        for number, line in enumerate(open(path, encoding="utf-8"), 1):
            if rule.search(line.rstrip("\n")):
                yield f"{short(root, path)}:{number}", line.strip()


def functions(root):
    """Each function's name, place and body."""
    for path in files(root):
        text = open(path, encoding="utf-8").read()
        for found in re.finditer(r"\bfn (\w+)", text):
            begin = re.compile(r"^\s*\{$|\) (?:-> [^\n{]+ )?\{$", re.M).search(text, found.end())
            if not begin:
                continue
            depth, at = 0, begin.end() - 1
            while True:
                depth += {"{": 1, "}": -1}.get(text[at], 0)
                at += 1
                if depth == 0:
                    break
            yield found.group(1), f"{short(root, path)}:{text[:found.start()].count(chr(10)) + 1}", text[begin.end():at - 1]


def shape(body):
    """The body with its names numbered in the order in which they come, and without its numbers and texts."""
    names, out = {}, []
    for token in re.findall(r"\"[^\"]*\"|\w+|[^\w\s]", re.sub(r"//.*", "", body)):
        if token[0] == '"':
            out.append("TEXT")
        elif token[0].isdigit():
            out.append("NUMBER")
        elif token[0].isalpha() or token[0] == "_":
            out.append(token if token in ("self", "if", "for", "in", "match", "return", "let", "mut", "else") else f"n{names.setdefault(token, len(names))}")
        else:
            out.append(token)
    return tuple(out)


def twins(root):
    """Functions of one shape that differ only in names, numbers and texts."""
    groups = collections.defaultdict(list)
    for name, place, body in functions(root):
        form = shape(body)
        if len(form) >= 14:
            groups[form].append(f"{name} ({place})")
    return [group for group in groups.values() if len(group) > 1]


def repeated(root):
    """Facts that stand in the `requires` of three or more functions of one crate."""
    facts = collections.defaultdict(list)
    for path in files(root):
        crate = path.split("/crates/")[1].split("/")[0]
        for number, line in enumerate(open(path, encoding="utf-8"), 1):
            found = re.match(r"\s*requires(?: \w+)? \{ (.*) \}\s*$", line)
            for fact in re.split(r" × ", found.group(1)) if found else []:
                facts[crate, re.sub(r"[()]", "", fact).strip()].append(f"{short(root, path)}:{number}")
    return [(key, places) for key, places in sorted(facts.items()) if len(places) > 2]


def main():
    arguments = [a for a in sys.argv[1:] if a != "-v"]
    root = os.path.abspath(arguments[0] if arguments else os.path.join(os.path.dirname(__file__), ".."))
    verbose = "-v" in sys.argv
    for point, what, pattern in PATTERNS:
        places = list(by_pattern(root, pattern))
        print(f"{point}  {len(places):4d}  {what}")
        for place, line in places if verbose else []:
            print(f"            {place}: {line}")
    groups = twins(root)
    print(f"2  {sum(len(g) for g in groups):4d}  functions of one shape that differ in names, numbers and texts, in {len(groups)} groups")
    for group in groups if verbose else []:
        print(f"            {', '.join(group)}")
    facts = repeated(root)
    print(f"5  {len(facts):4d}  facts in the `requires` of three functions or more")
    for (crate, fact), places in facts if verbose else []:
        print(f"            {crate}: {fact}: {', '.join(places)}")
    proofs = glob.glob(os.path.join(root, "crates/*/proofs/**/*.antt"), recursive=True)
    print(f"8  {len(proofs):4d}  files of proofs, {sum(sum(1 for _ in open(p, encoding='utf-8')) for p in proofs)} lines")


if __name__ == "__main__":
    main()
