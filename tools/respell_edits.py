#!/usr/bin/env python3
"""Brings the must-fail edits to the text that they are applied to: names by tools/respelled.txt, projections, clauses.

usage: python3 tools/respell_edits.py      at the top of the repository, after respell.py
It turns an edit only where all its 'old:' texts then stand once in their file, and prints the others, which are turned by hand.
"""

import glob
import os
import re
import sys

sys.path.insert(0, os.path.dirname(os.path.abspath(__file__)))
from respell import WORD  # noqa: E402

NAMES = dict(l.split() for l in open(os.path.join(os.path.dirname(os.path.abspath(__file__)), "respelled.txt"), encoding="utf-8"))
LIBRARY = {"getD": "get_or", "toZ": "to_z", "ofZ": "of_z"}


def names(text):
    return WORD.sub(lambda m: NAMES.get(m.group(0), LIBRARY.get(m.group(0), m.group(0))), text)


def turned(text, is_rt):
    t = re.sub(r"Rattle·(\w+)·?\.?specs\.specs\.", r"Rattle.\1.specs.", text)
    t = re.sub(r"Rattle·(\w+)\.", r"Rattle.\1.", t)
    t = names(t)
    for _ in range(4):
        t = re.sub(r"(?<=[\w)′']) \.(?=[\w])", ".", t)
    if is_rt:
        t = re.sub(r"now \((\w+)\.entry\)", r"\1.old", t)
        t = re.sub(r"now \((\w+)\.exit\)", r"\1.new", t)
        t = re.sub(r"now \((\w+\.entry\.\w+)\)", r"\1.now", t)
        t = re.sub(r"ensures \{ λ \w+\. ⌜ (.*?) ⌝ \}", r"ensures { \1 }", t)
        t = t.replace(" ⌝ }", " }").replace(" ⌝", " }")
        t = re.sub(r"\b(\w+[sS]ays) [rs]\b", r"\1 result", t)
    return t


def variants(old, new, is_rt):
    yield turned(old, is_rt), turned(new, is_rt)
    a, b = turned(old, is_rt), turned(new, is_rt)
    yield re.sub(r"(\w+)\.old", r"\1.now", a), re.sub(r"(\w+)\.old", r"\1.now", b)
    for parts in re.findall(r"(\w+)\.old", a):
        yield a.replace(parts + ".old", parts + ".now"), b.replace(parts + ".old", parts + ".now")


def main():
    left = 0
    for path in sorted(glob.glob("crates/*/must-fail/*.edit")):
        crate = path.split("/must-fail/")[0]
        lines = open(path, encoding="utf-8").read().split("\n")
        out, file, text, ok, k = [], None, None, True, 0
        while k < len(lines):
            line = lines[k]
            if line.startswith("file: "):
                file = line[6:].strip()
                text = open(os.path.join(crate, file), encoding="utf-8").read()
            if line.startswith("old: "):
                old, new = line[5:], lines[k + 1][5:]
                for a, b in [(old, new), *variants(old, new, file.endswith(".rt"))]:
                    if text.count(a) == 1 and a != b:
                        text = text.replace(a, b)
                        out += ["old: " + a, "new: " + b]
                        break
                else:
                    ok = False
                    out += [line, lines[k + 1]]
                k += 2
                continue
            out.append(names(line) if line.startswith("#") else line)
            k += 1
        if not ok:
            left += 1
            print("by hand: " + path)
            continue
        with open(path, "w", encoding="utf-8") as f:
            f.write("\n".join(out))
    print(f"respell_edits: {left} left")


if __name__ == "__main__":
    main()
