#!/usr/bin/env python3
"""Brings the repository's own definitions and lemmas to today's spelling: words in snake case, types and facts in camel case.

usage: python3 tools/respell.py        at the top of the repository, once, after /opt/rattle/port/port.py

It goes by text. A name is turned if a file of specs/ or proofs/ declares it with a dash, or a file imports it under a name with one.
Names that Rattle makes, as those of goals, and functions of src/ keep their spelling. It prints names that fall together.
"""
import collections
import os
import re
import sys

NAME = r"[^\s(){}\[\];,.:\"]+"
HEAD = re.compile(r"\s*(?:(?:abbrev|unfoldable|pub)\s+)*(?:(?:record|data)\s+(" + NAME + r").*|(" + NAME + r")\s+:\s+(.*))")
ALIAS = re.compile(r" as (" + NAME + r")")
MADE = re.compile(r"(invariant|decreases|loop|returns|overflow|bounds|offset)[-_]")
# what port.py makes of two imports whose names once ended in -of
ONCE = {"number_of_lem": "number_of", "code_of_lem": "code_of"}
# words of the library that an import had put in another's place
SHADOWS = {"AllByRecursion": "All"}


def files(ends):
    for root, folders, names in os.walk("crates"):
        folders[:] = sorted(f for f in folders if f != "out")
        for name in sorted(names):
            if name.endswith(ends):
                yield os.path.join(root, name)


def read(path):
    with open(path, encoding="utf-8") as f:
        return f.read()


def turned(name):
    parts = name.replace("′", "'").split("-")
    if parts[0][:1].isupper():
        return "".join(p[:1].upper() + p[1:] for p in parts)
    return "_".join(parts)


def code_of(line, mark):
    """The line without its comment, and the comment."""
    at = 0 if line.lstrip().startswith(mark) else line.find(" " + mark + " ")
    return (line, "") if at < 0 else (line[:at], line[at:])


def declared():
    """The names to turn, with the files that declare them; and those of them that are fields of records."""
    names, fields = collections.defaultdict(set), set()
    for path in files(".antt"):
        inside = False
        for line in read(path).split("\n"):
            line, _ = code_of(line, "--")
            inside = bool(re.match(r"\s*(pub )?record ", line.replace("abbrev ", ""))) or inside and line.startswith("  ")
            found = HEAD.match(line)
            name = found and (found[1] or found[2])
            if name and not (found[3] or "").startswith("goal.") and not MADE.match(name):
                names[name].add(path)
                if inside:
                    fields.add(name)
    for path in files((".antt", ".rt")):
        for line in read(path).split("\n"):
            if re.match(r"(ghost )?use ", line):
                for name in ALIAS.findall(line):
                    names[name].add(path)
    return names, fields


def main():
    names, fields = declared()
    to = {n: turned(n) for n in names if "-" in n or "′" in n} | ONCE
    for new, olds in collections.Counter(to.values()).items():
        if olds > 1 or new in names:
            print("look: falls together:", new, [n for n in to if to[n] == new])
    token = re.compile(r"(\.?)(" + NAME + r")")

    def put(found, before):
        dot, name = found[1], found[2]
        if name not in to:
            return found[0]
        path = re.search(r"(?:^|[\s({])(?:[A-Z]\w*\.(?:\w+\.)*)?[A-Z]\w*$", before)
        return dot + to[name] if not dot or name in fields or path else found[0]

    for path in files((".antt", ".rt")):
        mark = "--" if path.endswith(".antt") else "//"
        text, lines = read(path), []
        for line in text.split("\n"):
            code, comment = code_of(line, mark)
            pieces = re.split(r"(\"[^\"]*\")", code) if path.endswith(".rt") else [code]
            pieces = [p if p.startswith('"') else token.sub(lambda m: put(m, p[: m.start()]), p) for p in pieces]
            lines.append("".join(pieces) + comment)
        new = "\n".join(lines)
        for word, alias in SHADOWS.items():
            if f"{word} as {alias}" in new:
                new = new.replace(f"{word} as {alias}", word)
                new = re.sub(r"(?<![\w'-])" + alias + r"(?![\w'-])", word, new)
        if new != text:
            with open(path, "w", encoding="utf-8") as f:
                f.write(new)


if __name__ == "__main__":
    sys.exit(main())
