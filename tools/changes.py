#!/usr/bin/env python3
"""Writes, as Markdown, the public signatures, clauses, types, definitions and theorems that differ between two checkouts.

    python3 tools/changes.py OLD NEW

Functions are matched by crate and name, methods by their own name; definitions and theorems by file and name, and then by name alone.
"""
import collections
import pathlib
import re
import sys

old_top, new_top = pathlib.Path(sys.argv[1]), pathlib.Path(sys.argv[2])
PROGRAMS = {"list", "list_cases", "test_calls"}


def squeezed(text):
    text = re.sub(r"\s+", " ", text).strip()
    return text.replace("( ", "(").replace(", )", ")").replace(" )", ")")


def functions(top):
    """Each public function by crate and name: its signature and clauses."""
    found = {}
    for p in sorted(top.glob("crates/*/src/**/*.rt")):
        crate = p.relative_to(top / "crates").parts[0]
        if crate in PROGRAMS:
            continue
        owner = ""
        block = []
        for line in p.read_text().split("\n"):
            m = re.match(r"impl(?:<[^>]*>)? (?:(\S+) for )?([A-Za-z]\w*)", line)
            if m:
                owner = m.group(2) + "::"
            if line == "}":
                owner = "" if not block else owner
            if re.match(r" *pub fn ", line):
                block = [line]
            elif block:
                block.append(line)
            if block and re.match(r" *\{$|.*\{$", line) and "fn " in " ".join(block) and line.strip() in ("{",) or (block and len(block) == 1 and line.endswith("{")):
                text = squeezed(" ".join(block)).rstrip("{").strip()
                name = re.search(r"fn (\w+)", text).group(1)
                found[(crate, owner + name)] = text
                block = []
    return found


def types(top):
    found = {}
    for p in sorted(top.glob("crates/*/src/**/*.rt")):
        crate = p.relative_to(top / "crates").parts[0]
        if crate in PROGRAMS:
            continue
        text = re.sub(r" *//[^\n]*\n", "", p.read_text())
        for m in re.finditer(r"(?:#\[derive\(([^)]*)\)\]\n)?pub (struct|enum) (\w+)(<[^>]*>)? \{\n(.*?)\n\}", text, re.S):
            found[(crate, m.group(3))] = squeezed(f"{m.group(2)} {m.group(3)}{m.group(4) or ''} {{ {m.group(5)} }} ({m.group(1)})")
        for m in re.finditer(r"pub (const \w+: [^=;]+ = [^;]+);", text):
            found[(crate, re.search(r"const (\w+)", m.group(1)).group(1))] = squeezed(m.group(1))
        for m in re.finditer(r"^(impl(?:<[^>]*>)? \S+ for \w+) \{(.*?)\n\}", text, re.S | re.M):
            ghosts = " ".join(re.findall(r"ghost [^;]*;", m.group(2)))
            found[(crate, m.group(1))] = squeezed(m.group(1) + " { " + ghosts + " }")
    return found


def definitions(top):
    """Each definition of specs/ by file and name: its type and equations."""
    found = collections.OrderedDict()
    for p in sorted(top.glob("crates/*/specs/**/*.antt")):
        name = str(p.relative_to(top / "crates"))
        text = re.sub(r"(?m)^ *--.*\n", "", p.read_text())
        text = re.sub(r"(?m)^use .*\n", "", text)
        for block in re.split(r"\n\s*\n", text):
            m = re.match(r"\s*(?:abbrev |unfoldable )?(?:pub )?(?:abbrev |unfoldable )?(?:record |data )?([^\s:{}(]+)", block)
            if m and m.group(1) not in ("pub", "mod", "module"):
                found.setdefault((name, m.group(1)), squeezed(block))
    return found


def theorems(top):
    """Each public declaration of proofs/, but for the answers of functions, by file and name: its statement."""
    found = collections.OrderedDict()
    for p in sorted(top.glob("crates/*/proofs/**/*.antt")):
        parts = p.relative_to(top / "crates").parts
        if "out" in parts or (p.name in ("Answers.antt", "Invariants.antt") and len(parts) > 3):
            continue
        lines = [l for l in p.read_text().split("\n") if not l.lstrip().startswith("--")]
        for n, line in enumerate(lines):
            m = re.match(r"^( *)(?:abbrev )?pub (?:abbrev )?([^\s:{}()]+)(?: \{[^}]*\})* : ", line)
            if not m:
                continue
            statement = [line.strip()]
            for more in lines[n + 1 :]:
                if not more.strip() or re.match(r"\s*(unfolding |where\b|" + re.escape(m.group(2)) + r"[ =])", more):
                    break
                statement.append(more.strip())
            found.setdefault(("/".join(parts), m.group(2)), squeezed(" ".join(statement)))
    return found


def row(cells):
    return "| " + " | ".join(c.replace("|", "\\|") for c in cells) + " |"


def compare(title, old, new, place, head=("What", "Old", "New")):
    rows = []
    by_name = {}
    for (a, b), text in new.items():
        by_name.setdefault(b.split("::")[-1], []).append(((a, b), text))
    used = set()
    for key, text in old.items():
        if new.get(key) == text:
            continue
        if key in new:
            rows.append(row([place(key), f"`{text}`", f"`{new[key]}`"]))
            continue
        moved = [(k, t) for k, t in by_name.get(key[1].split("::")[-1], []) if k not in old]
        if moved and moved[0][1] == text:
            continue
        if moved:
            used.add(moved[0][0])
            rows.append(row([place(key), f"`{text}`", f"`{moved[0][1]}` ({place(moved[0][0])})"]))
        else:
            rows.append(row([place(key), f"`{text}`", "(gone)"]))
    for key, text in new.items():
        if key not in old and key not in used and text not in old.values():
            rows.append(row([place(key), "(new)", f"`{text}`"]))
    print(f"### {title}: {len(rows)}\n")
    if rows:
        print(row(head))
        print("|" + "---|" * len(head))
        print("\n".join(rows))
    print()


compare("Public functions", functions(old_top), functions(new_top), lambda k: f"{k[0]}::{k[1]}")
compare("Public types, constants and implementations", types(old_top), types(new_top), lambda k: f"{k[0]}: {k[1]}")
compare("Definitions (specs/)", definitions(old_top), definitions(new_top), lambda k: f"{k[0]}: {k[1]}")
compare("Public theorems (proofs/, but for the answers of functions)", theorems(old_top), theorems(new_top), lambda k: f"{k[0]}: {k[1]}")
