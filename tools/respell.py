#!/usr/bin/env python3
"""Respells the repository's own definitions and lemmas: words in snake case, as respell.tsv beside this file lists them.

usage: respell.py [FOLDER]     at the top of a checkout on which the kit's port.py has run; FOLDER is that checkout, else the current one

It runs once: a second run would turn names that the first one made. Rows of respell.tsv: old, a tab, new. A whole word turns: in the .antt files (a label that Rattle makes stays: below proofs/ a word behind a dot, and an answer's
own name), in the clauses, imports and comments of the .rt files, in must-fail edits, and in code spans of the .md files.
A row whose first word is 'first' has a file and a lemma's name that port.py has respelled there, and that another definition would meet: it turns in that file alone,
before the others.
"""

import os
import re
import sys

HERE = os.path.dirname(os.path.realpath(__file__))
WORD = re.compile(r"[^\s(){}\[\].;,:@\"«»`|/]+")
ANSWER = re.compile(r"(?m)^(?:abbrev )?(?:pub )?(\S+) : (?:tie|goal)\.")


def rows():
    first, table = {}, {}
    with open(os.path.join(HERE, "respell.tsv"), encoding="utf-8") as f:
        for line in f:
            words = line.rstrip("\n").split("\t")
            if words[0] == "first":
                first.setdefault(words[1], {})[words[2]] = words[3]
            else:
                table[words[0]] = words[1]
    return first, table


def turned(text, table, stay=()):
    return WORD.sub(lambda m: m[0] if m[0] in stay else table.get(m[0], m[0]), text)


def behind_dot(text, table, stay):
    """A word behind a dot stays, but where it is a field: then it has a capital within."""

    def one(m):
        dotted = m.start() > 0 and text[m.start() - 1] == "." and not text[: m.start()].endswith("..")
        if m[0] in stay or dotted and not re.search("[A-Z]", m[0]):
            return m[0]
        return table.get(m[0], m[0])

    return WORD.sub(one, text)


def path_steps(text, table):
    """The early rows: no step of a path and no field."""

    def one(m):
        dotted = m.start() > 0 and text[m.start() - 1] == "."
        return m[0] if dotted else table.get(m[0], m[0])

    return WORD.sub(one, text)


def in_spans(text, table):
    """Code spans; a claim names its definition as FILE#NAME."""
    return re.sub(r"`[^`\n]+`", lambda m: re.sub(r"[^`#!]+", lambda n: turned(n[0], table), m[0]), text)


def respelled(path, text, first, table):
    text = path_steps(text, first.get(path, {}))
    if path.endswith(".antt"):
        of_function = re.search(r"/proofs/[^/]+/", path)
        if of_function:
            return behind_dot(text, table, set(ANSWER.findall(text)))
        return turned(text, table)
    if path.endswith(".rt"):
        return turned(text, table)
    if path.endswith(".edit"):
        return turned(text, table)
    if path.endswith(".md"):
        return in_spans(text, table)
    return text


def main(argv):
    top = argv[0] if argv else "."
    first, table = rows()
    for folder, dirs, files in os.walk(top):
        dirs[:] = sorted(d for d in dirs if d not in (".git", "out", "target"))
        for name in sorted(files):
            path = os.path.join(folder, name)
            if os.path.islink(path) or not name.endswith((".antt", ".rt", ".edit", ".md")):
                continue
            with open(path, encoding="utf-8") as f:
                text = f.read()
            new = respelled(os.path.relpath(path, top), text, first, table)
            if new != text:
                with open(path, "w", encoding="utf-8") as f:
                    f.write(new)


if __name__ == "__main__":
    main(sys.argv[1:])
