#!/usr/bin/env python3
"""tools/count_forms.py [-v]: counts the places of the eight points of docs/DESIGN-PASS.md in crates/*/src, and with -v names them.

Run it at the top of the repository. It finds by spelling alone: what a place is, and why it stays, the page says.
"""
import collections
import glob
import itertools
import re
import sys

VERBOSE = "-v" in sys.argv
FILES = sorted(glob.glob("crates/*/src/*.rt"))
TEXT = {path: open(path, encoding="utf-8").read() for path in FILES}


def lines_with(pattern):
    """Each line of the sources that the pattern is found in, with its place; comments do not count."""
    found = []
    for path, text in TEXT.items():
        for number, line in enumerate(text.split("\n"), 1):
            code = line.split("//")[0]
            if re.search(pattern, code):
                found.append(f"{path}:{number}: {line.strip()}")
    return found


def said_often(least):
    """The facts that stand in the `requires` of at least so many functions."""
    said = collections.defaultdict(list)
    for path, text in TEXT.items():
        for name, clauses in re.findall(r"fn (\w+)[^{;]*?\n((?:\s+(?:requires|ensures)[^\n]*\{(?:[^{}]|\{[^{}]*\})*\}\n)+)", text):
            for clause in re.findall(r"requires[^{]*\{((?:[^{}]|\{[^{}]*\})*)\}", clauses):
                for fact in clause.split(" × "):
                    said[" ".join(fact.split()).strip("()")].append(f"{path}:{name}")
    return [f"{fact}: {', '.join(where)}" for fact, where in said.items() if len(where) >= least]


def together(least):
    """Three parameters that at least so many functions take together, with their names and types."""
    groups = collections.Counter()
    for text in TEXT.values():
        for _, inside in re.findall(r"fn (\w+)(?:<[^>]*>)?\(([^)]*)\)", text):
            names = sorted(" ".join(p.split()) for p in inside.split(",") if ":" in p)
            groups.update(itertools.combinations(names, 3))
    return [f"{count} functions: {', '.join(names)}" for names, count in groups.most_common() if count >= least]


def report(point, what, places):
    print(f"{point:>3} {len(places):>4}  {what}")
    if VERBOSE:
        for place in places:
            print(f"          {place}")


report("1a", "own enums", lines_with(r"^\s*pub(\(crate\))? enum |^enum "))
report("1b", "a verdict beside a value: fields", lines_with(r"pub (verdict|refusal): (Verdict|Result|Option)"))
report("1c", "variants of enums of the shape of Option or Result, named in code",
       lines_with(r"\b(Verdict|Written|Opened|Sought|Lookup|Turn|Answer|Ground)::"))
report("1d", "a number for a kind, or for none", lines_with(
    r"\b(class|mode|operation|book|command|mark): u8|\((u8|StateNo), u8\),$|Book\(u8\)|const (UNCLEAR|IGNORED|JOINT)|== UNCLEAR|return UNCLEAR"))
report("3a", "`while` and `loop`", lines_with(r"^\s*('\w+: )?(while|loop)\b"))
report("3b", "`for` over the numbers of a range", lines_with(r"^\s*('\w+: )?for \w+ in \(?[\w.]+\.\."))
report("4a", "bytes of a number written out", lines_with(r"% 256"))
report("4b", "a refusal's number and places copied out", lines_with(r"told\.number"))
report("4c", "functions that compare, convert or tell", lines_with(r"fn (smaller|mark|told|made_of|told_of|reason_of|same)\b"))
report("5a", "facts in the `requires` of three functions or more", said_often(3))
report("5b", "three parameters that six functions or more take together", together(6))
report("6a", "`[Pair; 8]`", lines_with(r"\[Pair; 8\]"))
report("6b", "other arrays of a fixed size", lines_with(r"\[[\w.]+; *\w+\]"))
report("7", "`match` on a letter", lines_with(r"match (command|script\[)"))
