#!/usr/bin/env python3
"""Respells the repository's own definitions and lemmas: snake case, and types in camel case.

usage: python3 tools/respell.py [ROOT]

The names and what they become stand in respell.tsv, beside this file. It was run once, after the kit's port.py; run it
there again on a checkout of the older text to compare. In .antt files each name is turned where it stands whole; in .rt
files and must-fail edits too, but not in comments and strings, where only a name in backticks is turned, as in .md files.
"""
import os
import re
import sys

HERE = os.path.dirname(os.path.realpath(__file__))
NAMES = dict(line.rstrip("\n").split("\t") for line in open(os.path.join(HERE, "respell.tsv"), encoding="utf-8"))
WORD = re.compile(r"[^\s(){}\[\],;.:`\"|]+")
QUOTED = re.compile(r"`[^`\n]*`")


def turned(text):
    """Each name that stands whole in a text."""
    return WORD.sub(lambda m: NAMES.get(m.group(), m.group()), text)


def in_backticks(text):
    return QUOTED.sub(lambda m: turned(m.group()), text)


def code(line):
    """A line of code: strings as they are, and of a comment only what stands in backticks."""
    out, i = [], 0
    for m in re.finditer(r'"(?:\\.|[^"\\])*"|//.*|--.*', line):
        out.append(turned(line[i : m.start()]))
        out.append(m.group() if m.group().startswith('"') else in_backticks(m.group()))
        i = m.end()
    return "".join(out) + turned(line[i:])


def respelled(path, text):
    if path.endswith(".md"):
        return in_backticks(text)
    return "\n".join(code(line) for line in text.split("\n"))


def main(root):
    changed = 0
    for folder, dirs, files in os.walk(root):
        dirs[:] = sorted(d for d in dirs if d not in (".git", "out", "tools", "target"))
        for name in sorted(files):
            if not name.endswith((".rt", ".antt", ".edit", ".md")):
                continue
            path = os.path.join(folder, name)
            with open(path, encoding="utf-8") as f:
                old = f.read()
            new = respelled(path, old)
            if new != old:
                changed += 1
                with open(path, "w", encoding="utf-8") as f:
                    f.write(new)
    print(f"respell: {len(NAMES)} names, {changed} files changed")


if __name__ == "__main__":
    main(sys.argv[1] if len(sys.argv) > 1 else ".")
