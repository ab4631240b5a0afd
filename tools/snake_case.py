#!/usr/bin/env python3
"""Respells the repository's own definitions and lemmas: words in snake case, types and facts in camel case.

usage: python3 tools/snake_case.py        at the top of the repository, once, after the kit's port.py

A name is respelled if a file of specs/ or proofs/ declares it with a dash (a definition, a lemma, a record, a field, a
constructor, a set of lemmas) or an import gives it with a dash. Names of goals, which Rattle makes, and those of its
library stay; so do strings and comments of sources. It also turns those names in must-fail edits, and in README.md and docs/
where they stand between backticks.
"""

import os
import re

WORD = r"[A-Za-zℕℤ_][\w'ℕℤ₀-₉]*"
DASHED = re.compile(rf"(?<![\w'\-]){WORD}(?:-[\w'ℕℤ₀-₉]+)+(?![\w'\-])")
DECLARED = re.compile(rf"\s*(?:(?:pub|abbrev|unfoldable|axiom)\s+)*({WORD}(?:-[\w'ℕℤ₀-₉]+)+)\s+:\s(.*)")
TYPE = re.compile(rf"\s*(?:(?:pub|abbrev)\s+)*(?:record|data|ruleset)\s+({WORD}(?:-[\w'ℕℤ₀-₉]+)+)")
ALIAS = re.compile(rf" as ({WORD}(?:-[\w'ℕℤ₀-₉]+)+)")
CODES = re.compile(r'"(?:[^"\\]|\\.)*"')


def files(*endings):
    for folder, dirs, names in os.walk("crates"):
        dirs[:] = sorted(d for d in dirs if d not in ("out", "data"))
        for name in sorted(names):
            if name.endswith(endings):
                yield os.path.join(folder, name)


def read(path):
    with open(path, encoding="utf-8", newline="") as f:
        return f.read()


def declared():
    """The repository's own names with a dash, and the names that it takes from Rattle's library."""
    own, library = set(), set()
    for path in files(".antt", ".rt"):
        for line in read(path).splitlines():
            use = re.match(r"\s*(?:ghost )?use (\S+?)\.\{(.*)\}", line)
            if use:
                own.update(ALIAS.findall(line))
                if use.group(1).startswith("Rattle.std"):
                    library.update(x.split(" as ")[0].strip() for x in use.group(2).split(","))
                continue
            if path.endswith(".rt"):
                continue
            name = DECLARED.match(line)
            if name and not name.group(2).startswith("goal."):
                own.add(name.group(1))
            kind = TYPE.match(line)
            if kind:
                own.add(kind.group(1))
    return own, library


def respelled(name):
    parts = name.split("-")
    if name[0].isupper():
        return "".join(p[0].upper() + p[1:] for p in parts)
    return "_".join(parts)


def turned(text, own):
    return DASHED.sub(lambda m: respelled(m.group()) if m.group() in own else m.group(), text)


def turned_code(line, own, comment):
    """A line with its names respelled, outside strings and the comment at its end."""
    out, at = "", 0
    for m in re.finditer(CODES.pattern + "|" + re.escape(comment) + r".*", line):
        out += turned(line[at:m.start()], own) + m.group()
        at = m.end()
    return out + turned(line[at:], own)


def main():
    own, library = declared()
    both = sorted(own & library)
    if both:
        raise SystemExit("also names of the library: " + " ".join(both))
    for path in files(".antt", ".rt", ".edit"):
        comment = "-- " if path.endswith(".antt") else "// "
        text = read(path)
        new = "".join(turned_code(line, own, comment) for line in text.splitlines(keepends=True))
        if new != text:
            with open(path, "w", encoding="utf-8", newline="") as f:
                f.write(new)
    pages = ["README.md"] + sorted(os.path.join("docs", n) for n in os.listdir("docs") if n.endswith(".md") and not n.startswith("PORT"))
    for path in pages:
        text = read(path)
        new = re.sub(r"`[^`\n]+`", lambda m: turned(m.group(), own), text)
        if new != text:
            with open(path, "w", encoding="utf-8", newline="") as f:
                f.write(new)


main()
