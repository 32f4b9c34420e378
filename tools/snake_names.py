#!/usr/bin/env python3
"""Spells the names that specs/ and proofs/ declare in snake case, as today's Rattle does: `valueOf` to `value_of`, `byte-more` to `byte_more`.

usage: python3 tools/snake_names.py [--check]      at the top of the repository, once, right after port.py

It goes by whole words. It turns the definitions, fields, constructors and lemmas that the files of specs/ and of proofs/ themselves declare (the folders of
single functions have the toolchain's own names), wherever a clause, a definition, a proof or a must-fail edit has the word. Types, facts and modules begin with a
capital and stay. Names of src/, strings and exported names stay. A name whose new spelling a file uses already for something else is listed, and stays everywhere
unless OTHERWISE gives it another one. --check writes nothing.
"""

import collections
import os
import re
import sys

WORD = re.compile(r"[^\s(){}.;,@\"«»\[\]|↦λ⌜⌝`]+")
UNQUALIFIED = re.compile(r"(?<!\.)(?<![^\s(){};,@\"«»\[\]|↦λ⌜⌝`])" + WORD.pattern)
DECLARED = re.compile(r"(?m)^[ |]*(?:(?:abbrev|unfoldable|unfolding|pub|mutual|let) )*([^\s(){}.;,@\"«»]+)(?: \{[^{}\n]*\}| \([^()\n]*\))* :(?= |$)")
RULESET = re.compile(r"(?m)^ *(?:pub )?ruleset (?:pub )?(\S+)")
RECORDED = re.compile(r"(?m)^ *(?:(?:abbrev|unfoldable|pub|mutual) )*(?:record|data) (?:pub )?(\S+)")
CLAUSE = re.compile(r"\b(?:requires|ensures|ghost)\b[^{;]*\{|\bghost use\b")
# a name whose plain spelling has another meaning already, and the one that it gets
OTHERWISE = {
    "Limits-hold-one-answer": "limits_hold_one_answer",
    "Marks-at-keeps": "marks_at_keeps",
    "Marks-at-one-answer": "marks_at_one_answer",
    "Operation-mark-keeps": "operation_mark_keeps",
    "Operation-mark-one-answer": "operation_mark_one_answer",
    "P-in": "P_in",
    "R-in": "R_in",
    "Refusal-told-keeps": "refusal_told_keeps",
    "Refusal-told-one-answer": "refusal_told_one_answer",
    "Run-new-keeps": "run_new_keeps",
    "Run-new-one-answer": "run_new_one_answer",
    "Limits-hold-keeps": "limits_hold_keeps",
    "all-bytes": "all_bytes_are",
    "bit-and": "bit_of_and",
    "bit-or": "bit_of_or",
    "calls-of": "calls_of_is",
    "cell-turn": "cell_turn_is",
    "entries-in": "entries_stay_in",
    "evening-told": "evening_told_is",
    "goal-set": "has_goal_set",
    "in-range": "is_in_range",
    "lost-by": "lost_by_pair",
    "meets-all": "says_meets_all",
    "operation-at": "operation_at_is",
    "pair-bytes": "pair_bytes_count",
    "pairs-back": "pairs_out_in",
    "stops-by": "stops_by_pair",
    "swept-down": "swept_down_is",
    "swept-up": "swept_up_is",
    "trailer-in": "trailer_in_file",
    "unmet-at": "unmet_at_is",
    "way-into": "way_into_is",
    "way-told": "way_told_is",
}


def snake(name):
    words = re.sub(r"(?<=[a-z0-9])([A-Z]+)(?=[A-Z][a-z]|$|[^A-Za-z])|(?<=[a-z0-9])[A-Z]", lambda m: "_" + m[0].lower(), name)
    return words.replace("-", "_")


def files(root):
    for folder, dirs, names in os.walk(os.path.join(root, "crates")):
        dirs[:] = sorted(d for d in dirs if d != "out")
        for name in sorted(names):
            if name.endswith((".antt", ".rt", ".edit")):
                yield os.path.join(folder, name)


def shared(path):
    """Whether the file's declarations are the repository's own: not in the folder of one function."""
    return path.endswith(".antt") and re.search(r"/crates/\w+/(specs|proofs)/[^/]+$", path)


def parts(path, text):
    """The text in pieces, each with whether words turn in it: of a .rt file the clauses alone."""
    if not path.endswith(".rt"):
        return [(text, True)]
    found, at = [], 0
    while True:
        m = CLAUSE.search(text, at)
        if not m:
            return found + [(text[at:], False)]
        if m[0].endswith("{"):
            end, depth = m.end(), 1
            while depth and end < len(text):
                depth += {"{": 1, "}": -1}.get(text[end], 0)
                end += 1
        else:
            end = text.index(";", m.end())
        found += [(text[at : m.end()], False), (text[m.end() : end], True)]
        at = end


def main(argv):
    root = os.getcwd()
    if not os.path.isdir(os.path.join(root, "crates")):
        sys.exit("snake_names: run it at the top of the repository")
    texts = {p: open(p, encoding="utf-8").read() for p in files(root)}
    declared = set()
    for p, t in texts.items():
        if shared(p):
            declared.update(DECLARED.findall(t), RULESET.findall(t))
    new = {n: OTHERWISE.get(n, snake(n)) for n in declared if n in OTHERWISE or n[0].isalnum() and not n[0].isupper()}
    new = {n: s for n, s in new.items() if n != s}
    meets = collections.defaultdict(set)
    for a, s in new.items():
        meets[s].add(a)
    clashes = {}
    for s, olds in meets.items():
        if len(olds) > 1:
            clashes.update({o: f"{sorted(olds)} would be one name" for o in olds})
    for p, t in texts.items():
        words = set()
        for piece, turns in parts(p, t):
            # behind a dot a name is a field or of another module; of code a clause sees parameters and fields alone
            words.update(UNQUALIFIED.findall(piece) if turns else re.findall(r"\w+(?=\s*:(?!:))", piece))
        for o in words & new.keys():
            if new[o] in words:
                clashes.setdefault(o, f"{new[o]} stands in {os.path.relpath(p, root)} too")
    for o in sorted(clashes):
        print(f"left: {o}: {clashes[o]}")
    if "--check" in argv:
        print(f"{len(new)} names, {len(clashes)} left")
        return 0
    for o in clashes:
        del new[o]
    for p, t in texts.items():
        turned = "".join(WORD.sub(lambda m: new.get(m[0], m[0]), piece) if turns else piece for piece, turns in parts(p, t))
        if turned != t:
            with open(p, "w", encoding="utf-8") as f:
                f.write(turned)
    print(f"{len(new)} names turned")
    return 0


if __name__ == "__main__":
    sys.exit(main(sys.argv[1:]))
