#!/usr/bin/env python3
"""Brings the repository's own names to today's spelling, after the kit's port.py has run.

usage: python3 tools/respell.py            at the top of the repository

Words of specs/ and proofs/ in camel case get snake case (`beforeYear` is `before_year`, the lemma `number-dateOf` is `number-date_of`), and the fields of
records in specs/ get `_` for a dash. Types, modules and facts keep their capitals; the functions of src/ have snake case already. Names in clauses, in
must-fail edits and in the documents follow. It prints each name that falls together with another of the same file, and then writes nothing. A second run changes nothing.
"""

import glob
import os
import re
import sys

WORD = r"[^\s(){}.;,@\"`«»\[\]\\:|]+"
# Fields of several records and local words for their values: they fall together, and nothing turns on it.
ALIKE = {"public_unknown", "school_unknown"}
CAMEL = re.compile(r"^[a-z][a-z0-9_]*[A-Z]")
# An operator's name and a number stay; a subscript stays with its name.
TOKEN = re.compile(WORD)


def snake(part):
    part = re.sub(r"([a-z0-9])([A-Z])", r"\1_\2", part)
    return part.lower()


def turned(word, fields):
    if word in fields:
        word = word.replace("-", "_")
    parts = word.split("-")
    return "-".join(snake(it) if CAMEL.match(it) else it for it in parts)


def files(*ends):
    for f in sorted(glob.glob("crates/**/*", recursive=True)):
        if f.endswith(ends) and "/out/" not in f and os.path.isfile(f):
            yield f


def read(path):
    with open(path, encoding="utf-8", newline="") as it:
        return it.read()


def documents():
    return ["README.md", *sorted(f for f in glob.glob("docs/*.md") if os.path.basename(f) != "PORT.md")]


def fields_of_specs():
    out = set()
    for f in files(".antt"):
        if "/specs/" in f:
            out |= set(re.findall(r"^\s+pub ([a-z][\w]*(?:-\w+)+) :", read(f), re.M))
    return out


def own_names():
    """Returns each word of the repository's antt files that changes, with its new spelling."""
    fields, out = fields_of_specs(), {}
    for f in files(".antt"):
        for line in read(f).split("\n"):
            for word in TOKEN.findall(re.sub(r"--.*", "", line)):
                new = turned(word, fields)
                if new != word:
                    out[word] = new
    return out


def in_code(text):
    """Returns the bare words of a text: no comments, no fields, no parts of a path."""
    text = re.sub(r"--[^\n]*|//[^\n]*", "", text)
    return set(re.findall(r"(?<![\w.'-])" + WORD, text))


def collisions(names):
    bad = []
    for f in files(".antt"):
        bare = in_code(read(f))
        for word in bare & set(names):
            if names[word] in bare - ALIKE:
                bad.append(f"{f}: {word} and {names[word]}")
    return bad


def leftover(text, known):
    """Turns words in camel case that port.py had turned in specs/ and proofs/, but not in edits and documents."""
    word = re.compile(r"(?<![\w'-])[a-z][a-z0-9_]*[A-Z][A-Za-z0-9]*(?![\w'])")
    return word.sub(lambda m: snake(m.group(0)) if snake(m.group(0)) in known else m.group(0), text)


def write(path, text, names, pattern, known):
    new = pattern.sub(lambda m: names[m.group(0)], text)
    if path.endswith((".edit", ".md")):
        new = leftover(new, known)
    if new != text:
        with open(path, "w", encoding="utf-8", newline="") as it:
            it.write(new)
        print("respelled " + path)


def main():
    names = own_names()
    bad = collisions(names)
    if bad:
        print("\n".join(bad))
        return 1
    known = {it for f in files(".antt") for word in in_code(read(f)) for it in word.split("-")} | set(names.values())
    each = "|".join(re.escape(it) for it in sorted(names, key=len, reverse=True)) or "(?!)"
    pattern = re.compile(r"(?<![\w'-])(?:" + each + r")(?![\w'-])")
    for f in [*files(".antt", ".rt", ".edit"), *documents()]:
        write(f, read(f), names, pattern, known)
    return 0


if __name__ == "__main__":
    sys.exit(main())
