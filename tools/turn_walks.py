#!/usr/bin/env python3
"""Turns the proof files of an older Rattle, proofs/F/Proof.antt over `tie`, into Invariants.antt and Answers.antt.

usage: python3 tools/turn_walks.py CRATE..        at the top of the repository; the crates below each must be proved

For each function it asks the check for the goals' older and newer names. An answer that only says `search rules` or `omega arith` goes, since the check tries these
by itself. Steps are named by the source, so `c.before.before.loop` becomes `c.loop-i`. What it cannot place is printed on a line that begins 'left:'.
The old file stays beside the new ones as Proof.antt.old until the function is proved.
"""

import json
import os
import re
import subprocess
import sys
import tempfile

PLAIN = {"search rules", "omega arith", "refl"}
KEPT = r"[^\s(){}.;,@\"«»\[\]|]"


def alike(name):
    return name.replace("-", "_")


def words_after(text, at):
    """The arguments of a call from `at` on: each a word or a piece in parentheses."""
    out = []
    while True:
        while at < len(text) and text[at].isspace():
            at += 1
        if at >= len(text) or text[at] in "),":
            return out
        if text[at] == "(":
            depth, start = 0, at
            while True:
                depth += {"(": 1, ")": -1}.get(text[at], 0)
                at += 1
                if not depth:
                    break
            out.append(text[start:at])
        else:
            m = re.compile(r"[^\s(),]+").match(text, at)
            out.append(m[0])
            at = m.end()


def blocks(text):
    """The file's pieces: each a run of lines that begins with one that is not indented."""
    found, comment = [], []
    for line in text.split("\n"):
        if line.startswith("--"):
            comment.append(line)
        elif line and not line[0].isspace():
            found.append([comment, [line]])
            comment = []
        elif found and not comment:
            found[-1][1].append(line)
    return [(c, "\n".join(b).rstrip()) for c, b in found]


def rename_steps(body, steps, left, where):
    def step(m):
        name = m[2]
        new = steps.get(alike(name)) or steps.get(re.sub("_is$", "", alike(name)))
        if new is None:
            if name not in ("args", "requires", "ranges"):
                left.append(f"{where}: step {name}")
            new = name
        return "c." + new

    body = re.sub(rf"\bc((?:\.before)*)\.({KEPT}+)", step, body)
    at = 0
    while True:
        at = body.find("⊎_elim ", at)
        if at < 0:
            return body
        first, second, *rest = words_after(body, at + 7) + ["", ""]
        end = body.find(")", 0)
        m = re.match(r"c\.if-(\S+)\.branch$", rest[0]) if rest and rest[0] else None
        one, two = (re.match(r"\(λ (\S+)\. (.*)\)$", it, re.S) for it in (first, second))
        if m and one and two:
            stop = body.index(rest[0], at) + len(rest[0])
            body = body[:at] + f"elim {rest[0]} [ then-{m[1]} {one[1]} ↦ {one[2]} | else-{m[1]} {two[1]} ↦ {two[2]} ]" + body[stop:]
        at += 7


def turn(crate, names, left):
    top = os.path.join("crates", crate, "proofs")
    for folder, dirs, found in os.walk(top):
        if "Proof.antt" not in found:
            continue
        where = os.path.relpath(folder, "crates")
        path = os.path.join(folder, "Proof.antt")
        text = open(path, encoding="utf-8").read()
        stem = os.path.relpath(folder, top).replace(os.sep, ".")
        it = names.get(f"Rattle-{crate}-proofs.{stem}.Lts")
        if it is None or "tie.spec" not in text:
            left.append(f"{where}: no names for it")
            continue
        needs = [(alike(a), b) for a, b in it["needs"]]
        loops = {alike(a): (b, params, changed) for ((a, b), params), changed in zip(it["loops"], it["changed"])}
        steps = {alike(p[2][0]): p[2][1] for p in it["places"] if p[2][0]}
        comments, uses, answers, own, invariants, rulesets = [], [], {}, [], [], []
        spec = None
        pieces = blocks(text)
        defs = {}
        signatures = {}
        for comment, body in pieces:
            head = body.split("\n")[0]
            if head.startswith("use "):
                uses.append(body)
                if not defs and comment:
                    comments = comment
                continue
            m = re.match(rf"(?:abbrev )?(?:pub )?({KEPT}+)(?: \{{[^{{}}]*\}})? :", head)
            if m and "tie." in head and not m[1].endswith(("-spec", "_spec")):
                signatures[m[1]] = head
                unfold = re.search(r"(?m)^unfolding .*$", body)
                defs[m[1]] = (comment, unfold[0] if unfold else None, [])
                continue
            w = re.match(rf"({KEPT}+)", head)
            if w and w[1] in defs:
                defs[w[1]][2].append(body)
                continue
            if head.startswith("unfolding ") and defs:
                last = list(defs)[-1]
                more = body.split("\n")
                defs[last] = (defs[last][0], more[0], defs[last][2] + ["\n".join(more[1:])] * bool(more[1:]))
                continue
            if re.match(rf"pub {KEPT}+[-_]spec :", head):
                continue
            if re.match(rf"{KEPT}+[-_]spec\b.* =", head) or re.match(rf"{KEPT}+[-_]spec =", head):
                spec = body
                continue
            own.append((comment, body))
        at = spec.index("tie.spec") + len("tie.spec")
        args = words_after(spec, at)
        n_inv = sum(1 for a in args if a in defs and re.search(r": tie\.(invariant|decreases)", signatures[a]))
        args = [a for a in args if not (a in defs and re.search(r": tie\.(invariant|decreases)", signatures[a]))]
        if len(args) != len(needs):
            left.append(f"{where}: {len(args)} answers for {len(needs)} goals")
        by_need = {}
        for a, (_, new) in zip(args, needs):
            if a in defs:
                comment, unfold, bodies = defs[a]
                # what a call requires no longer takes the lifetimes
                by_need[new] = (comment, unfold, [re.sub(rf"^{re.escape(a)}(?!{KEPT})( c κs(?= ))?", lambda m: new + (" c" if m[1] else ""), b) for b in bodies])
                continue
            m = re.match(r"\(λ ((?:\S+ )*\S+)\. (.*)\)$", a, re.S)
            if m and m[2].strip() in PLAIN:
                continue
            if m:
                by_need[new] = ([], None, [f"{new} {m[1].replace(' κs', '')} = {m[2].strip()}"])
            else:
                by_need[new] = ([], None, [f"{new} c = {a} c"])
        for name, head in signatures.items():
            m = re.search(r": tie\.(invariant|decreases)-(\S+)$", head)
            if m:
                new, params, changed = loops[alike(m[2])]
                body = "\n".join(defs[name][2])
                k = re.match(rf"{re.escape(name)} ([^=]*?) =", body)
                variables = k[1].split() if k else []
                text_ = body[k.end():] if k else body
                paths = []
                for p, ch in zip(params, changed):
                    paths += [f"l.initial.{p}"] if ch else []
                # the order that the toolchain has: each variable, its first value where it changes, and then what it is now
                standing = []
                for p, ch in zip(params, changed):
                    standing.append(f"l.initial.{p}" if ch else f"l.{p}")
                standing += [f"l.{p}" for p, ch in zip(params, changed) if ch]
                if len(variables) > len(standing):
                    left.append(f"{where}: {name} has {len(variables)} variables for {len(standing)}")
                for v, path_ in zip(variables, standing):
                    text_ = re.sub(rf"(?<![^\s(){{}};,@\[\]|]){re.escape(v)}(?![^\s(){{}}.;,@\[\]|])", "\0" + path_, text_)
                text_ = text_.replace("\0", "")
                invariants.append((defs[name][0], f"abbrev pub {m[1]}-{new} : goal.{m[1]}-{new}\n{m[1]}-{new} l ={text_}"))
        uses = [u for u in uses if not re.search(r"\.(Statement|Tie)(\.|\b)", u)]
        imports = "\n".join(uses)
        base = f"Rattle.{crate}.proofs.{stem}"
        if invariants:
            out = "\n".join(comments) + "\n" + imports + f"\nuse {base}.Given as goal\n"
            for comment, body in invariants:
                out += "\n" + "".join(c + "\n" for c in comment) + body + "\n"
            open(os.path.join(folder, "Invariants.antt"), "w", encoding="utf-8").write(out)
        if by_need or own:
            out = "\n".join(comments) + "\n" + imports + f"\nuse {base}.Goals as goal\n"
            mark = len(out)
            for comment, body in own:
                out += "\n" + "".join(c + "\n" for c in comment) + rename_steps(body, steps, left, where) + "\n"
            for _, new in needs:
                if new in by_need:
                    comment, unfold, bodies = by_need[new]
                    out += "\n" + "".join(c + "\n" for c in comment) + f"pub {new} : goal.{new}\n" + (unfold + "\n" if unfold else "")
                    out += "\n".join(rename_steps(b, steps, left, where) for b in bodies) + "\n"
            arms = sorted(set(re.findall(rf"(?<!{KEPT})((?:then|else)-{KEPT}+) \S+ ↦", out)))
            if arms:
                out = out[:mark] + f"use {base}.Goals.{{{', '.join(arms)}}}\n" + out[mark:]
            open(os.path.join(folder, "Answers.antt"), "w", encoding="utf-8").write(out)
        os.rename(path, path + ".old")


def main(argv):
    if not argv or argv[0].startswith("-"):
        print(__doc__)
        return 2
    for crate in argv:
        left = []
        with tempfile.TemporaryDirectory() as d:
            said = subprocess.run(["rt", "check", "--generated", d, "--old-names"], cwd=os.path.join("crates", crate), capture_output=True, text=True)
            try:
                names = json.load(open(os.path.join(d, "names.json")))
            except OSError:
                print(f"left: {crate}: no names. The check said: {said.stdout[-600:]}{said.stderr[-600:]}")
                continue
        turn(crate, names, left)
        for l in left:
            print("left: " + l)
    return 0


if __name__ == "__main__":
    sys.exit(main(sys.argv[1:]))
