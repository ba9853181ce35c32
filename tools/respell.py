#!/usr/bin/env python3
"""Brings the repository's own definitions and lemmas to today's spelling: snake case for functions, lemmas and fields, camel case for types.

usage: python3 tools/respell.py LANDED [NAMES]
       at the top of the repository, once, straight after /opt/rattle/port/port.py; LANDED is the commit from which that script started,
       NAMES a file in which the old and the new names are written down.

A name of the older spelling (fileLeft, keep-append, After-callee) gets its words joined by '_'; a dash stays between two names of definitions, as in
'length-list_of'. A lemma that would have the name of a definition gets '_lem' after it. Names of src/ (functions, fields, variants) stay. The script goes over
crates/*/specs, crates/*/proofs and the clauses of crates/*/src; over the edits in must-fail/ and the pages it is run by respell_edits.py.
"""

import collections
import io
import os
import re
import subprocess
import sys
import tarfile
import tempfile

SIGNATURE = re.compile(r"^( {0,4})((?:abbrev |unfoldable |pub |record |data |ruleset )*)([^\s(){}\[\],;.:]+)((?:\s+[({][^)}]*[)}])*)\s*:\s")
WORD = re.compile(r"[^\s(){}\[\],;:.\"`]+")
# names of the library that stand in names of lemmas
LIBRARY = {"length", "drop", "take", "set", "sets", "reverse", "append", "replicate", "get_or", "concat"}
LEM = "_lem"


def snake(name):
    """The words of one part of a name, lower case and joined by '_'."""
    return re.sub(r"(?<=[a-z0-9])([A-Z])", lambda m: "_" + m.group(1).lower(), name)


def is_old(name):
    return "-" in name or (name[:1].islower() and re.search(r"[A-Z]", name))


def camel(name):
    return "".join(p[:1].upper() + p[1:] for p in name.split("-"))


def joined(name, known):
    """The new spelling: the longest names that are known keep a dash between them."""
    name = name.replace("getD", "get_or")
    parts = [snake(p) for p in name.split("-")]
    words, i = [], 0
    while i < len(parts):
        for j in range(len(parts), i, -1):
            word = "_".join(parts[i:j])
            if word in known or j == i + 1:
                words.append((word, word in known))
                i = j
                break
    text, before = words[0][0], words[0][1]
    for word, is_known in words[1:]:
        text += ("-" if before and is_known else "_") + word
        before = is_known
    return text[:1].lower() + text[1:] if re.match(r"[A-Z](_|$)", text) else text


def signatures(text):
    """(name, is a type) of each signature, in the order of the file."""
    found = []
    for line in text.splitlines():
        m = SIGNATURE.match(line)
        if m and m.group(3) not in ("use", "let", "in", "--", "where", "elim"):
            kind = m.group(2)
            is_type = "record" in kind or "data" in kind or bool(re.search(r"Type\s+\S+\s*(where)?$", line.rstrip()))
            found.append((m.group(3), is_type, len(m.group(1))))
    return found


def by_hand(path):
    return re.search(r"/proofs/(?:[^/]+/)+Proof\.antt$", path) is not None


def files(root, ends):
    for folder, dirs, names in os.walk(os.path.join(root, "crates")):
        dirs[:] = sorted(d for d in dirs if d != "out")
        for n in sorted(names):
            if n.endswith(ends):
                yield os.path.relpath(os.path.join(folder, n), root)


def read(root, path):
    with open(os.path.join(root, path), encoding="utf-8") as f:
        return f.read()


def landed(commit):
    to = tempfile.mkdtemp(prefix="respell-")
    with tarfile.open(fileobj=io.BytesIO(subprocess.run(["git", "archive", commit], check=True, capture_output=True).stdout)) as t:
        t.extractall(to)
    return to


def new_names(old_root):
    """old name -> new name, for each name that a file of specs/ or proofs/ (walks by hand left out) declares."""
    declared, places, types, definitions = collections.defaultdict(set), collections.defaultdict(set), set(), set()
    for path in files(old_root, ".antt"):
        if by_hand("/" + path):
            continue
        for name, is_type, depth in signatures(read(old_root, path)):
            declared[name].add("specs" if "/specs/" in path else "proofs")
            places[name].add(path)
            if is_type:
                types.add(name)
            if "/specs/" in path and name[:1].islower() and depth <= 2:
                definitions.add(snake(name.replace("-", "_")))
    known = definitions | LIBRARY
    new = {}
    for name in declared:
        if not is_old(name):
            continue
        new[name] = camel(name) if name[:1].isupper() and name in types else joined(name, known)
    taken = {n for n in declared if not is_old(n)} | {new[n] for n in new if "specs" in declared[n]}
    for name in sorted(new):
        if "specs" not in declared[name] and new[name] in taken and new[name] != name:
            new[name] += LEM
    return new, places


def words_of(text, skip_comments="--"):
    """(start, end) of each word outside comments, and inside backticks in comments."""
    at = 0
    for line in text.splitlines(keepends=True):
        m = re.search(r"(?:^|\s)" + re.escape(skip_comments), line)
        code = line[: m.start()] if m else line
        for w in WORD.finditer(code):
            yield at + w.start(), at + w.end()
        if m:
            for tick in re.finditer(r"`([^`]*)`", line[m.start() :]):
                for w in WORD.finditer(tick.group(1)):
                    yield at + m.start() + tick.start(1) + w.start(), at + m.start() + tick.start(1) + w.end()
        at += len(line)


def main(argv):
    commit, old_root = argv[0], landed(argv[0])
    new, places = new_names(old_root)
    # what port.py made of each old name: the k-th signature of a file is still the k-th
    ported = collections.defaultdict(set)
    for path in files(".", ".antt"):
        if by_hand("/" + path) or not os.path.exists(os.path.join(old_root, path)):
            continue
        a, b = signatures(read(old_root, path)), signatures(read(".", path))
        if len(a) != len(b):
            print(f"respell: {path}: {len(a)} signatures, {len(b)} now")
            continue
        for (x, _, _), (y, _, _) in zip(a, b):
            ported[y].add(x)
    changed, both = 0, []
    for path in list(files(".", (".antt", ".rt"))):
        text = read(".", path)
        old_path = path if os.path.exists(os.path.join(old_root, path)) else re.sub(r"/([^/]+)/Proof\.antt$", lambda m: "/" + m.group(1).replace("_", "-") + "/Proof.antt", path)
        old_text = read(old_root, old_path) if os.path.exists(os.path.join(old_root, old_path)) else ""
        is_rt = path.endswith(".rt")
        mark = "//" if is_rt else "--"
        library = set()
        for m in re.finditer(r"use ((?:Rattle\.std|mathlib|lib|mir|borrow|native|denote|Prim|sem|logic)[\w.\-']*)\.\{([^}]*)\}", text):
            library |= {w.strip().split(" as ")[0] for w in m.group(2).split(",")}
        spots = list(words_of(text, mark))
        old_words = [old_text[s:e] for s, e in words_of(old_text, mark)]
        turned = {}
        for y, olds in ported.items():
            if y in library:
                continue
            targets = {new.get(x, y) for x in olds}
            if targets == {y}:
                continue
            if is_rt and (all("-" in x for x in olds) or not any("/specs/" in p for x in olds for p in places[x])):
                continue
            if len(targets) == 1:
                turned[y] = next(iter(targets))
                continue
            if is_rt:
                named = {new.get(x, y) for x in olds if any("/specs/" in p for p in places[x])}
                if len(named) == 1 and next(iter(named)) != y:
                    turned[y] = next(iter(named))
                continue
            forms = set(olds) | {y}
            then = [w for w in old_words if w in forms]
            now = [k for k, (s, e) in enumerate(spots) if text[s:e] == y]
            if not now:
                continue
            if len(then) == len(now):
                turned[y] = {k: new.get(w, y) for k, w in zip(now, then)}
            elif len({new.get(w, y) for w in then}) == 1:
                turned[y] = new.get(then[0], y)
            else:
                both.append(f"{path}: {y}: {len(then)} places then, {len(now)} now: {sorted(set(then))}")
        out, last = [], 0
        for k, (s, e) in enumerate(spots):
            t = turned.get(text[s:e])
            if isinstance(t, dict):
                t = t.get(k)
            if t and t != text[s:e]:
                out += [text[last:s], t]
                last = e
        if last:
            changed += 1
            with open(path, "w", encoding="utf-8") as f:
                f.write("".join(out) + text[last:])
    for line in both:
        print("respell: by hand: " + line)
    # names of two modules that are one word now
    fallen = collections.defaultdict(set)
    for x in places:
        fallen[new.get(x, x)].add(x)
    for y, xs in sorted(fallen.items()):
        if len(xs) > 1:
            print(f"respell: one word now: {y}: " + ", ".join(f"{x} ({', '.join(sorted(places[x]))})" for x in sorted(xs)))
    if len(argv) > 1:
        with open(argv[1], "w", encoding="utf-8") as f:
            f.writelines(f"{x} {new[x]}\n" for x in sorted(new))
    print(f"respell: {len(new)} names, {changed} files")
    return 0


if __name__ == "__main__":
    raise SystemExit(main(sys.argv[1:]))
