#!/usr/bin/env python3
"""Spells the repository's own definitions, fields and lemmas as today's Rattle spells names, by respell.tsv beside this file.

usage: python3 tools/respell.py [FOLDER]

To be run once, at the top of a checkout that /opt/rattle/port/port.py has turned. Words turn in specs/ and proofs/, in the clauses and the
`ghost use` items of src/, and in the must-fail edits of specs/. Code, strings, inputs, outputs and the names of functions stay.
"""
import glob
import os
import re
import sys

HERE = os.path.dirname(os.path.realpath(__file__))
WORD = re.compile(r'[^\s(){}.;,@"«»`]+')
COMMENT = re.compile(r'(?<![^\s(){}.;,@"«»])--[^\n]*')
CLAUSE = re.compile(r"\b(?:requires|ensures)\s*\*?\s*(?:\w+\s*)?\{|\bghost\s+use\b")
CAMEL = re.compile(r"[a-z0-9][A-Z]")


def table():
    with open(os.path.join(HERE, "respell.tsv"), encoding="utf-8") as rows:
        return dict(row.rstrip("\n").split("\t") for row in rows)


NEW = table()


def code(text, staying=frozenset(), steps=frozenset()):
    """The words of antt's code, but for labels of goals and, behind a dot, steps of functions."""
    def turned(m):
        word = m[0]
        if word not in NEW or word in staying:
            return word
        behind_dot = m.start() > 0 and m.string[m.start() - 1] == "."
        return word if behind_dot and word.replace("-", "_") in steps and "-" in word else NEW[word]

    return WORD.sub(turned, text)


def prose(text):
    """In comments only what no English word looks like."""
    return WORD.sub(lambda m: NEW.get(m[0], m[0]) if CAMEL.search(m[0]) else m[0], text)


def antt(text, staying=frozenset(), steps=frozenset()):
    made, at = [], 0
    for m in COMMENT.finditer(text):
        made += [code(text[at : m.start()], staying, steps), prose(m[0])]
        at = m.end()
    return "".join(made) + code(text[at:], staying, steps)


def end_of_clause(text, at):
    depth = 1
    while depth:
        depth += {"{": 1, "}": -1}.get(text[at], 0)
        at += 1
    return at


def rust(text):
    made, at = [], 0
    for m in CLAUSE.finditer(text):
        if m.start() < at or text.rfind("//", text.rfind("\n", 0, m.start()) + 1, m.start()) >= 0:
            continue
        end = text.index(";", m.end()) if m[0].startswith("ghost") else end_of_clause(text, m.end())
        made += [text[at : m.end()], code(text[m.end() : end])]
        at = end
    return "".join(made) + text[at:]


def edit(text):
    lines, of_specs = [], False
    for line in text.split("\n"):
        if line.startswith("file: "):
            of_specs = line.startswith("file: specs/")
        head = line[:5] if line[:5] in ("old: ", "new: ") else None
        lines.append(head + code(line[5:]) if head and of_specs else line)
    return "\n".join(lines)


def rewrite(path, turn):
    with open(path, encoding="utf-8") as file:
        text = file.read()
    new = turn(text)
    if new != text:
        with open(path, "w", encoding="utf-8") as file:
            file.write(new)


def main():
    if len(sys.argv) > 1:
        os.chdir(sys.argv[1])
    steps = set()
    for path in glob.glob("crates/*/src/**/*.rt", recursive=True):
        with open(path, encoding="utf-8") as file:
            steps |= set(re.findall(r"\bfn (\w+)", file.read()))
    for path in glob.glob("crates/*/specs/**/*.antt", recursive=True):
        rewrite(path, antt)
    for path in glob.glob("crates/*/proofs/**/*.antt", recursive=True):
        def of_proofs(text, deep=path.count("/") > 3):
            labels = set(re.findall(r"(?m)^(\S+) : tie\.", text)) if deep else set()
            return antt(text, labels, steps if deep else set())
        rewrite(path, of_proofs)
    for path in glob.glob("crates/*/src/**/*.rt", recursive=True):
        rewrite(path, rust)
    for path in glob.glob("crates/*/must-fail/*.edit"):
        rewrite(path, edit)


main()
