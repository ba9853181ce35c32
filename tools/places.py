#!/usr/bin/env python3
"""Counts, in crates/*/src and crates/*/proofs, the places of the eight points of docs/DESIGN-PASS.md.

    python3 tools/places.py [FOLDER] [-v]

FOLDER is a checkout (default: this one); -v lists each place. Each count is of one search, named in its line, so that two
commits can be compared.
"""
import collections
import pathlib
import re
import sys

args = [a for a in sys.argv[1:] if a != "-v"]
verbose = "-v" in sys.argv
top = pathlib.Path(args[0]) if args else pathlib.Path(__file__).resolve().parent.parent
sources = [p for p in sorted(top.glob("crates/*/src/**/*.rt"))]
proofs = [p for p in sorted(top.glob("crates/*/proofs/**/*.antt"))]


def name(p):
    return str(p.relative_to(top / "crates"))


def lines(files):
    for p in files:
        for n, line in enumerate(p.read_text().split("\n"), 1):
            yield p, n, line


def show(point, what, places):
    print(f"{point}  {what}: {len(places)}")
    if verbose:
        for x in places:
            print("      " + x)


def search(point, what, pattern, files=sources, skip=r"^\s*//"):
    found = []
    for p, n, line in lines(files):
        if re.search(skip, line):
            continue
        for _ in re.finditer(pattern, line):
            found.append(f"{name(p)}:{n}: {line.strip()[:120]}")
    show(point, what, found)
    return found


def functions(p):
    """Each function of a file: its name, its head and its body."""
    text = p.read_text()
    for m in re.finditer(r"^( *)(?:pub )?fn (\w+)", text, re.M):
        end = text.find("\n" + m.group(1) + "}", m.end())
        if end < 0:
            continue
        whole = text[m.start() : end + 2 + len(m.group(1))]
        brace = whole.find("\n" + m.group(1) + "{")
        if brace < 0:
            brace = whole.find("{")
        yield m.group(2), whole[:brace], whole[brace:]


# ---- 1
own = []
for p in sources:
    for m in re.finditer(r"pub enum (\w+)(?:<[^>]*>)? \{\n(.*?)\n\}", p.read_text(), re.S):
        variants = re.findall(r"^    (\w+)(\(|,| \{)", m.group(2), re.M)
        if len(variants) == 2 and ("Refused" in m.group(2) or "Fault" in m.group(2) or "None" in m.group(2)):
            own.append(f"{name(p)}: {m.group(1)}")
show("1a", "enums of two variants, one of them a refusal", own)
search("1b", "fields `answer` or `verdict` with values beside them", r"^    pub (answer|verdict)\b")
search("1c", "constants that number refusals", r"pub const [A-Z_]+: u32 = \d+;", [p for p in sources if "refusal" in name(p)])
search("1d", "refusals made of a number and a place", r"\bRefusal \{$|\bRefusal \{ number")
search("1e", "match arms that only hand a refusal on", r"\b(Refused|Fault|Err)\((\w+)\) => (\w+::)*(Refused|Fault|Err)\(\2\)")
search("1f", "numbers for a kind (functions that number an enum or a bool)", r"fn \w*_number\b.*-> u(8|32)")

# ---- 2
skeletons = collections.defaultdict(list)
for p in sources:
    for f, head, body in functions(p):
        code = re.sub(r"//[^\n]*", "", body)
        words = re.findall(r"\w+|[^\s\w]", code)
        kept = {"let", "mut", "if", "else", "while", "for", "in", "match", "return", "as", "loop", "true", "false"}
        key = " ".join(w if w in kept or not re.match(r"\w", w) else "x" for w in words)
        key = key.replace(", }", " }").replace(", )", " )")
        if len(words) >= 16:
            skeletons[key].append(f"{name(p)}: {f}")
groups = [g for g in skeletons.values() if len(g) > 1]
show("2a", "groups of functions whose bodies differ in names and literals alone (16 words or more)", [" = ".join(g) for g in groups])
shapes = collections.defaultdict(list)
for p in sources:
    for m in re.finditer(r"pub (struct|enum) (\w+)(?:<[^>]*>)? \{\n(.*?)\n\}", p.read_text(), re.S):
        fields = re.findall(r"^    (?:pub )?(\w+)(?=[:(,])", m.group(3), re.M)
        shapes[(m.group(1), tuple(fields))].append(f"{name(p)}: {m.group(2)}")
show("2b", "groups of types with the same fields or variants", [" = ".join(g) for g in shapes.values() if len(g) > 1])

# ---- 3
search("3a", "`while` and `loop`", r"^\s*(while|loop)\b")
search("3b", "`for`", r"^\s*for\b")

# ---- 4
search("4a", "functions that compare two values field by field", r"fn (same_\w+|equal_\w+|is_same\w*)\b")
search("4b", "functions that convert", r"fn (as_\w+|to_\w+|from_\w+|signed|unsigned|\w+_number)\b")
search("4c", "functions that print or write text", r"fn (say_\w+|say|append_\w+|print_\w+|write_text\w*)\b")
search("4d", "types without PartialEq", r"#\[derive\((?!.*PartialEq).*\)\]")

# ---- 5
facts = collections.defaultdict(set)
together = collections.defaultdict(set)
for p in sources:
    for f, head, body in functions(p):
        where = f"{name(p)}: {f}"
        for clause in re.findall(r"requires (?:\w+ )?\{ (.*) \}", head):
            for fact in re.split(r" × ", clause):
                fact = fact.strip("() ")
                word = re.match(r"[A-Z]\w+", fact)
                facts[word.group(0) if word else re.sub(r"\b[a-z_]\w*(\.\w+)*", "x", fact)].add(where)
        params = re.search(r"\((.*?)\)(?: ->|\n|$)", head, re.S)
        if params:
            names = re.findall(r"(?:^|, ?|\n\s*)(?:mut )?(\w+): ", params.group(1))
            for i, a in enumerate(names):
                for b in names[i + 1 :]:
                    together[(a, b)].add(where)
show("5a", "facts in the contracts of three or more functions", [f"{k}: {len(v)} ({', '.join(sorted(v))})" for k, v in sorted(facts.items()) if len(v) > 2])
show("5b", "pairs of parameters in five or more functions", [f"{a}, {b}: {len(v)}" for (a, b), v in sorted(together.items(), key=lambda x: -len(x[1])) if len(v) > 4])

# ---- 6
search("6a", "arrays as fields", r"^    (pub )?\w+: \[")
search("6b", "tables with a count beside them (parameters)", r"fn .*\b(count|size|len|places)\b: usize.*")

# ---- 7
search("7a", "closures, Fn, dyn", r"\|\w*\| |impl Fn|: Fn|dyn ")
search("7b", "enums that say which step", r"pub enum \w*(Step|Op|Command|Kind)\b")

# ---- 8
own = [p for p in proofs if p.name in ("Answers.antt", "Invariants.antt") and len(p.relative_to(top / "crates").parts) > 3]
show("8a", "proof files Answers.antt beside functions and methods", [name(p) for p in own if p.name == "Answers.antt"])
show("8b", "proof files Invariants.antt", [name(p) for p in own if p.name == "Invariants.antt"])
search("8c", "lemmas that are named after a place of the code", r"^[a-z]\w*_at_(In|After|Then|Loop)\w* :", proofs, r"^\s*--")
search("8d", "lines of those files", r"^.*\S", own, r"^$")
search("8e", "lemma names with _lem", r"^(pub )?\w*_lem\b.* :", proofs, r"^\s*--")
