#!/usr/bin/env python3
"""Respells the repository's own definitions and lemmas: words in snake case.

usage: python3 tools/spell_names.py [--also]   at the top, once, after the toolchain's port.py

A name is respelled if it has a hyphen, stands somewhere in a crate's definitions, proofs or clauses
without a dot before it, and is neither imported from the library nor the name of a goal or of one of
its places (then-.., else-.., in-.., if-.., but for three of ours, in-old, in-room and in-set).
Comments, strings, code, inputs and outputs stay; pages and must-fail edits get the new names where
they cite one that this script respells. The script stops before it writes where a new name stands
already; with --also it goes on. That is right here: each of the thirteen is a definition or lemma on
one side and a function of src/, a goal or a clause on the other, and no file means both by it.
"""

import collections
import os
import re
import sys

OWN = re.compile(r"Rattle\.(tape|labels|line_text|line_law|line|inspection)\.")
USE = re.compile(r"\s*(?:ghost )?use ([\w.+]+)\.\{(.*)\};?$")
GOAL = re.compile(r"(?:abbrev )?(?:pub )?(\S+) : goal\.")
NAME = re.compile(r"(\.?)(?<![\w'-])([A-Za-z_≡⊎][\w'≡⊎]*(?:-[\w'≡⊎]+)*)(?![\w'-])")
# constructors of a generated module, bound in answers
MADE = re.compile(r"(then|else|in|if)-")


def sources():
    for root, dirs, files in os.walk("crates"):
        dirs[:] = sorted(d for d in dirs if d != "out")
        for f in sorted(files):
            if f.endswith((".antt", ".rt")):
                yield os.path.join(root, f)


def cut(line, mark):
    """The line in front of its comment, and the comment."""
    quoted = False
    for i, c in enumerate(line):
        if c == '"':
            quoted = not quoted
        elif not quoted and line.startswith(mark, i):
            return line[:i], line[i:]
    return line, ""


def parts(line):
    """The line's parts outside and inside strings, in turn."""
    return re.split(r'("(?:[^"\\]|\\.)*")', line)


def mark_of(path):
    return "--" if path.endswith(".antt") else "//"


def respelled(text, names):
    def one(m):
        return m.group(1) + (m.group(2).replace("-", "_") if m.group(2) in names else m.group(2))

    return NAME.sub(one, text)


def main():
    library, goals = set(), set()
    bare, all_names = collections.Counter(), set()
    for path in sources():
        for line in open(path, encoding="utf-8").read().split("\n"):
            use = USE.match(line)
            if use:
                own = OWN.match(use.group(1))
                for n in re.split(r",\s*", use.group(2)):
                    n = n.split(" as ")[0].strip()
                    all_names.add(n)
                    if not own:
                        library.add(n)
                    elif use.group(1).endswith(".Goals"):
                        goals.add(n)
                continue
            goal = GOAL.match(line)
            if goal:
                goals.add(goal.group(1))
            text, _ = cut(line, mark_of(path))
            for i, part in enumerate(parts(text)):
                if i % 2 == 0:
                    for m in NAME.finditer(part):
                        all_names.add(m.group(2))
                        if "-" in m.group(2) and not m.group(1):
                            bare[m.group(2)] += 1
    names = {n for n in bare if n not in library and n not in goals and not MADE.match(n)}
    names |= {n for n in bare if n in {"in-old", "in-room", "in-set"}}
    clashes = sorted(n for n in names if n.replace("-", "_") in all_names)
    if clashes and "--also" not in sys.argv:
        print("these would fall together with another name: " + ", ".join(clashes))
        raise SystemExit(1)
    changed = 0
    for path in sources():
        old = open(path, encoding="utf-8").read()
        lines = []
        for line in old.split("\n"):
            text, comment = cut(line, mark_of(path))
            new = [respelled(p, names) if i % 2 == 0 else p for i, p in enumerate(parts(text))]
            lines.append("".join(new) + comment)
        new = "\n".join(lines)
        if new != old:
            open(path, "w", encoding="utf-8").write(new)
            changed += 1
    for root, dirs, files in os.walk("."):
        dirs[:] = [d for d in dirs if d not in (".git", "out")]
        for f in files:
            path = os.path.join(root, f)
            page = f.endswith(".md")
            if not page and not (f.endswith(".edit") and "must-fail" in root):
                continue
            old = open(path, encoding="utf-8").read()
            if page:
                new = re.sub(r"`[^`\n]*`", lambda m: respelled(m.group(0), names), old)
            else:
                new = "\n".join(respelled(l, names) if l.startswith(("old:", "new:")) else l for l in old.split("\n"))
            if new != old:
                open(path, "w", encoding="utf-8").write(new)
                changed += 1
    print(f"{len(names)} names respelled in {changed} files")


main()
