#!/usr/bin/env python3
"""In proofs of functions, spells the steps of a body as its source does: c.put-u16 becomes c.put_u16.

usage: python3 tools/step_names.py CRATE..
"""
import glob
import re
import sys

for crate in sys.argv[1:]:
    words = set()
    for path in glob.glob(f"crates/{crate}/src/**/*.rt", recursive=True):
        words |= set(re.findall(r"\b[a-z]\w*_\w+\b", re.sub(r"//.*", "", open(path, encoding="utf-8").read())))
    by_dash = {w.replace("_", "-"): w for w in words}
    names = sorted(by_dash, key=len, reverse=True)
    if not names:
        continue
    word = re.compile(r"(?<![\w])(" + "|".join(map(re.escape, names)) + r")(?![\w])")
    step = re.compile(r"(?<=\.)[\w'-]+|^(?:pub |abbrev pub )?[\w'-]+(?= :| c| g | l)|(?<=\{)[\w', -]+(?=\}$)|\b(?:then|else|in)-[\w-]+", re.M)
    for path in glob.glob(f"crates/{crate}/proofs/**/*.antt", recursive=True):
        if not path.endswith(("Answers.antt", "Invariants.antt")):
            continue
        old = open(path, encoding="utf-8").read()
        new = step.sub(lambda m: word.sub(lambda n: by_dash[n.group()], m.group()), old)
        if new != old:
            open(path, "w", encoding="utf-8").write(new)
            print(path)
