#!/usr/bin/env python3
"""Respells the project's own definitions and lemmas as Rattle's library spells its own: words in snake case.

usage: python3 tools/respell.py      at the top of the repository, once, on what port.py made of it

A name of specs/ or proofs/ that has a capital in its middle or a dash becomes snake case, wherever it is cited: in definitions,
clauses, proofs, must-fail edits and pages. A lemma that would then have the name of the definition that it speaks of ends in
`_lem`, and a definition that would have the name of a parameter or a field ends in `_of`. The crate `bytes`, which has the name
of a library of the kit, becomes `little_endian`. Functions, exported names, strings and inputs keep their names.
"""

import os
import re
import subprocess
import sys

WORD = re.compile(r"[A-Za-z_][A-Za-z0-9_'₀-₉≈\-]*")
KEYWORDS = {"abbrev", "unfoldable", "pub", "data", "record", "infix", "infixl", "infixr", "where", "unfolding", "elim", "in"}

# What snake case alone would make fall together with another name of the same scope.
OTHERWISE = {
    "isRoot": "is_root_of",
    "numBase": "num_base_of",
    "baseSlots": "base_slots_of",
    "extSlots": "ext_slots_of",
    "baseEvals": "base_evals_of",
    "extEvals": "ext_evals_of",
    "root-word": "root_word_lem",
    "payload-of": "payload_of_lem",
    "kind-of": "kind_of_lem",
    "below-p": "below_p_lem",
    "trailer-words": "trailer_words_lem",
    "root-held": "root_held_lem",
    "only-base": "only_base_lem",
    "base-operand": "base_operand_lem",
    "ext-operand": "ext_operand_lem",
    "limbs-of": "limbs_of_lem",
    "form-ok": "form_ok_lem",
    "ext-word": "ext_word_lem",
}

# The same, for names that mean another thing in other files: by the beginning of a file's path.
THERE = {
    "crates/evaluation/specs/Evals.antt": {"numBase": "num_base"},
    "crates/scan/proofs/ScanLaws.antt": {"give_all": "give_all_lem"},
    "crates/lowered/proofs/SimLaws.antt": {"give_all": "give_all_lem"},
    "crates/device/proofs/Exact.antt": {"filled_in": "filled_in_lem"},
    "crates/walk/proofs/WalkLaws.antt": {"node_ok": "node_ok_lem", "root_ok": "root_ok_lem"},
}

CRATE = ("bytes", "little_endian")


def snake(name):
    name = re.sub(r"(?<=[a-z0-9₀-₉])([A-Z])", lambda m: "_" + m.group(1).lower(), name)
    name = re.sub(r"(?<=_)([a-z])([A-Z])", lambda m: m.group(1) + "_" + m.group(2).lower(), name)
    return name.replace("-", "_")


def declared(text):
    """The names that a file of specs/ or proofs/ declares, fields and constructors too."""
    for line in text.splitlines():
        if line.lstrip().startswith("--"):
            continue
        m = re.match(r"^\s*((?:[^\s(){}:=;,]+ )+)(?:[({].*[)}] )?:(?: |$)", line)
        if not m:
            continue
        words = m.group(1).split()
        if words[0] in ("use", "module", "let", "in", "mod"):
            continue
        yield from (w for w in words if w not in KEYWORDS and not w.isdigit())


def imported(text):
    """The names that a file brings in from the library, which keep their spelling."""
    names = set()
    for m in re.finditer(r"^\s*(?:ghost )?use ([^\s{;]+)\.\{([^}]*)\}", text, re.M):
        path = m.group(1).split(".")
        own = path[0] == "Rattle" and os.path.isdir(os.path.join("crates", path[1]))
        if not own:
            names |= {n.strip().split(" as ")[-1] for n in m.group(2).split(",")}
    return names


def main():
    top = subprocess.run(["git", "rev-parse", "--show-toplevel"], capture_output=True, text=True, check=True).stdout.strip()
    os.chdir(top)
    listed = subprocess.run(["git", "ls-files"], capture_output=True, text=True, check=True).stdout.splitlines()
    texts = {}
    for path in listed:
        if path.startswith("tools/") or not path.endswith((".antt", ".rt", ".edit", ".md")):
            continue
        with open(path, encoding="utf-8") as f:
            texts[path] = f.read()
    own = set()
    for path, text in texts.items():
        if path.endswith(".antt") and not path.endswith("/Proof.antt"):
            own |= set(declared(text))
    names = {n: OTHERWISE.get(n, snake(n)) for n in own if n in OTHERWISE or ("-" in n and n != "-") or re.match(r"[a-z].*[A-Z]", n)}
    for path, text in texts.items():
        kept = imported(text) if path.endswith((".antt", ".rt")) else set()
        here = THERE.get(path, {})
        markdown = path.endswith(".md")

        def word(m):
            w = m.group(0)
            if w in here:
                return here[w]
            if w in kept or w not in names:
                return w
            # Behind a dot stands a field or a step of a proof, and never a lemma.
            if w in OTHERWISE and "-" in w and m.string[m.start() - 1 : m.start()] == ".":
                return snake(w)
            # A page's prose has words with dashes of its own: there only what stands in backquotes is a name.
            if markdown and "-" in w and not code(m):
                return w
            return names[w]

        def code(m):
            line = m.string.rfind("\n", 0, m.start()) + 1
            return m.string.count("`", line, m.start()) % 2 == 1

        new = WORD.sub(word, text)
        new = new.replace(f"Rattle.{CRATE[0]}.", f"Rattle.{CRATE[1]}.")
        if path.endswith(".rt"):
            new = re.sub(rf"\buse {CRATE[0]}::", f"use {CRATE[1]}::", new)
        if new != text:
            with open(path, "w", encoding="utf-8") as f:
                f.write(new)
    if os.path.isdir(os.path.join("crates", CRATE[0])):
        subprocess.run(["git", "mv", os.path.join("crates", CRATE[0]), os.path.join("crates", CRATE[1])], check=True)
        with open("crates.txt", encoding="utf-8") as f:
            lines = f.read()
        with open("crates.txt", "w", encoding="utf-8") as f:
            f.write(re.sub(rf"\b{CRATE[0]}\b", CRATE[1], lines))
    print(f"respell: {len(names)} names", file=sys.stderr)


if __name__ == "__main__":
    main()
