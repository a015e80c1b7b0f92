#!/usr/bin/env python3
"""Counts the places that docs/DESIGN-PASS.md speaks of, in the sources below crates/ of a commit or of the working tree.

    python3 tools/forms.py [COMMIT] [--list]

With --list each place is printed, and not the counts alone."""
import re
import subprocess
import sys

commit = next((a for a in sys.argv[1:] if not a.startswith("--")), None)
listed = "--list" in sys.argv


def git(*words):
    return subprocess.run(["git", *words], capture_output=True, text=True, check=True).stdout


def files(pattern):
    if commit:
        names = git("ls-tree", "-r", "--name-only", commit).split()
    else:
        names = git("ls-files", "--cached", "--others", "--exclude-standard").split()
    return sorted(set(n for n in names if re.fullmatch(pattern, n)))


def text(name):
    if commit:
        return git("show", f"{commit}:{name}")
    try:
        return open(name, encoding="utf-8").read()
    except FileNotFoundError:
        return ""


def bare(source):
    """The source without comments, clauses' lines stay."""
    return re.sub(r"//[^\n]*", "", source)


sources = {n: bare(text(n)) for n in files(r"crates/[^/]+/src/.*\.rt")}


def functions(source):
    """Each function's name, parameters, clauses with what stands between, and body."""
    for m in re.finditer(r"\bfn (\w+)(?:<[^(]*>)?\(", source):
        depth, i = 1, m.end()
        while depth:
            depth += {"(": 1, ")": -1}.get(source[i], 0)
            i += 1
        inside = source[m.end() : i - 1]
        parts, depth, start = [], 0, 0
        for k, ch in enumerate(inside):
            depth += {"(": 1, "<": 1, "[": 1, ")": -1, ">": -1, "]": -1}.get(ch, 0)
            if ch == "," and not depth:
                parts.append(inside[start:k])
                start = k + 1
        parts.append(inside[start:])
        end = source.find("\nfn ", i)
        head = re.match(r"[^{;]*(?:(?:requires|ensures)[^{]*\{[^\n]*\}\s*)*", source[i:])
        yield m.group(1), [p.strip() for p in parts if p.strip()], head.group(0) if head else "", m.start()


found = {}


def place(point, name, at, what):
    line = sources[name][:at].count("\n") + 1 if name in sources else 0
    found.setdefault(point, []).append(f"{name}:{line}: {what}")


# 1: types in the shape of Option or Result, flags beside values, constants that number kinds
SHAPES = "Outcome Place Columns Gaps Put Answer Emitted Stored ReadStored Lowering Evaluated Seen"
for name, s in sources.items():
    for m in re.finditer(r"\benum (\w+) \{", s):
        if m.group(1) in SHAPES.split():
            place("1 types of the shape of Option or Result", name, m.start(), m.group(1))
    for m in re.finditer(r"\bstruct (\w+)[^{;]*\{([^}]*)\}", s):
        if re.search(r"\b(good|ok|valid|found|done|present)\w*: bool", m.group(2)):
            place("1 flags with values beside", name, m.start(), m.group(1))
    for m in re.finditer(r"\bconst ((?:OP|OPK(?!_STEP)|DIM)_\w+|BASE|EXT): u\d+ =", s):
        place("1 constants that number kinds", name, m.start(), m.group(1))

# 3: loops that count an index by hand
for name, s in sources.items():
    for m in re.finditer(r"^\s*(while|loop)\b[^\n]*", s, re.M):
        place("3 while and loop", name, m.start(1), m.group(0).strip())

# 4: small functions that the language or the library has
BY_HAND = "both|same|least|greater|wide|index|word|bit|weight|plus|times|join|same_value"
for name, s in sources.items():
    for m in re.finditer(r"\bfn (%s)\(" % BY_HAND, s):
        place("4 comparison, choice and conversion by hand", name, m.start(), m.group(1))
    for m in re.finditer(r"\{\s*return true;\s*\}", s):
        place("4 `return true` in a ladder of tests", name, m.start(), "return true")

# 5: parameters that travel together, facts that contracts repeat
for name, s in sources.items():
    for fn, parts, head, at in functions(s):
        if len(parts) >= 8:
            place("5 functions with eight parameters or more", name, at, f"{fn} ({len(parts)})")
    for m in re.finditer(r"\(lent bases", s):
        place("5 `lent bases.now ..` in a clause", name, m.start(), "lent")

# 6: a slice with a count beside it
for name, s in sources.items():
    for fn, parts, head, at in functions(s):
        joined = " ".join(parts)
        if re.search(r"&(mut )?\[", joined) and any(re.fullmatch(r"(n|k|m|count|limit|length|to|blocks): (usize|u32)", p) for p in parts):
            place("6 a slice with a count beside it", name, at, fn)

# 7: a number or an enum that says which step to run
for name, s in sources.items():
    for m in re.finditer(r"\bfn (either|choose|binary_step|apply|chain)\(", s):
        place("7 a switch on which step to run", name, m.start(), m.group(1))

# 8: answers to goals
answers = 0
rows = 0
for n in files(r"crates/[^/]+/proofs/.*/Answers\.antt"):
    t = text(n)
    rows += t.count("\n")
    answers += len(re.findall(r"^(?:pub )?[\w\-']+ : goal\.", t, re.M))
invariants = sum(text(n).count("\n") for n in files(r"crates/[^/]+/proofs/.*/Invariants\.antt"))

for point in sorted(found):
    print(f"{point}: {len(found[point])}")
    if listed:
        for row in found[point]:
            print("    " + row)
print(f"8 answers to goals: {answers}, in {rows} lines; lines of invariants: {invariants}")
print(f"lines of source: {sum(text(n).count(chr(10)) for n in sources)}")
