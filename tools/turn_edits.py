#!/usr/bin/env python3
"""Brings the texts of the must-fail edits over to today's spelling of the files that they change.

usage: python3 tools/turn_edits.py COMMIT [--check]      at the top of the repository, after port.py and snake_names.py

COMMIT is the last one in the older spelling. An edit must fit its file: each `old:` stands there once. port.py leaves the edits alone, so this script reads
each edit and the file that it changes as they stood at COMMIT, lays that file beside today's, and learns word by word what each name became. It turns the names
of `old:` and `new:` alike, and the forms that the toolchain writes otherwise: `x .f` is `x.f`, `(x .f)` as an argument is `x.f`, `f x .g` is `(f x).g`, and a
clause has neither `⌜ ⌝` nor `λ r.`.

An edit whose turned text still doesn't fit is left as it is, and printed on a line that begins 'left:', for a hand to mend; so is one that fits today and says
something else, where a hand was at work. --check writes nothing.
"""

import collections
import difflib
import glob
import os
import re
import subprocess
import sys

WORD = re.compile(r"[^\s(){}\[\].;:,@\"«»|⌜⌝`]+")
NAME = re.compile(r"[^\W\d][\w'′·-]*\Z")
# words of a clause itself, which `turned` brings over
OF_CLAUSES = {"now", "entry", "exit", "r"}
OPERAND = r"[^\W\d][\w'′]*"


def at_commit(commit, path):
    ran = subprocess.run(["git", "show", f"{commit}:{path}"], stdout=subprocess.PIPE, stderr=subprocess.DEVNULL, encoding="utf-8")
    return ran.stdout if ran.returncode == 0 else None


def learnt(before, after):
    """What each name of the older text became: the name that stands most often in its place."""
    votes = collections.defaultdict(collections.Counter)
    old, new = (text.split("\n") for text in (before, after))
    lines = difflib.SequenceMatcher(None, [re.sub(r"\W|_", "", x).lower() for x in old], [re.sub(r"\W|_", "", x).lower() for x in new], False)
    for _, a, b, c, d in lines.get_opcodes():
        ours, theirs = (WORD.findall("\n".join(x)) for x in (old[a:b], new[c:d]))
        for _, i, j, k, l in difflib.SequenceMatcher(None, ours, theirs, False).get_opcodes():
            if j - i == l - k:
                for x, y in zip(ours[i:j], theirs[k:l]):
                    if NAME.match(x) and NAME.match(y) and x not in OF_CLAUSES:
                        votes[x][y] += 1
    return {x: it.most_common(1)[0][0] for x, it in votes.items()}


def projected(text):
    """`x .f` as `x.f`, `(x .f)` as `x.f`, and `g x .f` as `(g x).f`."""
    text = re.sub(rf"(?<![^\s(])((?:{OPERAND}(?:\.\w+)*) )((?:{OPERAND} )*{OPERAND})((?: \.\w+)+)", called, text)
    text = re.sub(rf"({OPERAND})((?: \.\w+)+)", lambda m: m[1] + m[2].replace(" ", ""), text)
    return re.sub(rf"(?<= )\(((?:{OPERAND}|\([^()]*\))(?:\.\w+)+)\)", r"\1", text)


def called(m):
    return m[0] if m[1].strip() in ("record", "pub", "data") else f"({m[1]}{m[2]}){m[3].replace(' ', '')}"


def turned(text, words, path):
    def spelled(it):
        return WORD.sub(lambda m: words.get(m[0], m[0]), it)

    if path.endswith(".rt"):
        # names of functions, fields and locals stay: only a clause has names that were turned
        clause = re.search(r"⌜ (.*) ⌝", text)
        if clause:
            inner = re.sub(r"\bnow (?:\((\w+) \.entry\)|(\w+))", lambda m: f"{m[1] or m[2]}.now", spelled(clause[1]))
            text = re.sub(r"(?:λ r\. )?⌜ .* ⌝", lambda m: re.sub(r"\br\b", "result", projected(inner)), text)
        return text
    return projected(spelled(text).replace("′", "'").replace("·specs.specs.", ".specs.").replace("Rattle·", "Rattle."))


def edit_of(text):
    path = re.search(r"(?m)^file: (src/.*|specs/.*)$", text)[1]
    return path, [(m[1], m[2]) for m in re.finditer(r"(?m)^old: (.*)\nnew: ?(.*)$", text)]


def fits(pairs, text):
    for old, new in pairs:
        if text.count(old) != 1:
            return False
        text = text.replace(old, new)
    return True


def main(argv):
    commit = next((x for x in argv if not x.startswith("--")), None)
    if not commit or not os.path.isdir("crates"):
        sys.exit(__doc__)
    everywhere = collections.defaultdict(collections.Counter)
    files = {}
    for path in sorted(glob.glob("crates/*/s[rp][ce]*/*")):
        before = at_commit(commit, path)
        if before is not None:
            with open(path, encoding="utf-8") as f:
                after = f.read()
            files[path] = (before, after, learnt(before, after))
            for x, y in files[path][2].items():
                everywhere[x][y] += 1
    same = written = left = 0
    for name in sorted(glob.glob("crates/*/must-fail/*.edit")):
        before = at_commit(commit, name)
        with open(name, encoding="utf-8") as f:
            now = f.read()
        if before is None:
            continue
        path, _ = edit_of(before)
        where = f"{name.split('/must-fail/')[0]}/{path}"
        _, text, words = files[where]
        words = {**{x: it.most_common(1)[0][0] for x, it in everywhere.items()}, **words}

        def spelled_today(edit):
            kinds = [(re.match(r"(old|new): |", x)[0], x) for x in edit.split("\n")]
            return "\n".join(k + turned(x[len(k) :], words, path) if k else x for k, x in kinds)

        made = spelled_today(before)
        if fits(edit_of(now)[1], text) and spelled_today(now) != made:
            left += 1
            print(f"left: {name}: it fits as a hand has made it")
        elif not fits(edit_of(made)[1], text):
            left += 1
            print(f"left: {name}: the turned text doesn't fit")
        elif made == now:
            same += 1
        else:
            written += 1
            if "--check" not in argv:
                with open(name, "w", encoding="utf-8") as f:
                    f.write(made)
            else:
                print(f"would turn {name}")
    print(f"{written} edits turned, {same} stand as this script has them, {left} left")
    return 0


if __name__ == "__main__":
    sys.exit(main(sys.argv[1:]))
