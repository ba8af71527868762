#!/usr/bin/env python3
"""respell: brings the names of this repository's own definitions and lemmas to snake case.

usage: python3 tools/respell.py [ROOT]

Run it once over a tree that port.py of the toolchain has turned. A name of specs/ or proofs/ that joins
its words by dashes joins them by underscores (limit-answer becomes limit_answer), and a fact, that is a
definition whose result is a type, stands in upper camel case (In-range becomes InRange). Names that the
toolchain makes for goals, names of its library, functions of src/, comments, strings, inputs and outputs
keep their spelling. Contracts in src/ and must-fail edits follow. It stops where two names would fall
together.
"""

import os
import re
import sys

NAME = r"[A-Za-z_][A-Za-z0-9_'\-]*"
WHOLE = re.compile(r"(?<![A-Za-z0-9_'\-◌≤<≡∙+*ℤℕ])" + NAME + r"(?![◌≤<≡∙+*ℤℕ])")
DEFINED = re.compile(
    r"(?m)^\s*(?:abbrev |unfoldable )?(?:pub )?(?:data |record )?(" + NAME + r")(?: [^:\n]*)? : *([^\n]*)"
)
BOUND = re.compile(r"\blet (" + NAME + r")[ :]|λ (" + NAME + r")\.|[({](" + NAME + r") :")
LIBRARY = re.compile(r"use\s+(?:Rattle\.std|mathlib|lib|borrow|native|Prim|denote|logic)[^\s{;]*\.\{([^}]*)\}")


def files(root, *ends):
    for folder, dirs, names in os.walk(os.path.join(root, "crates")):
        dirs[:] = sorted(d for d in dirs if d != "out")
        for name in sorted(names):
            if name.endswith(ends):
                yield os.path.join(folder, name)


def parts(text, path):
    """The text in turns: what is read as names, then a comment or a string, which is not."""
    skip = r'--[^\n]*' if path.endswith(".antt") else r'//[^\n]*|"(?:[^"\\\n]|\\.)*"'
    return re.split("(" + skip + ")", text)


def own_names(root):
    found, made, library, camel = set(), set(), set(), set()
    for path in files(root, ".antt", ".rt"):
        with open(path, encoding="utf-8") as f:
            turns = parts(f.read(), path)
        text = "".join(turns[0::2])
        for m in LIBRARY.finditer(text):
            library |= {n.strip().split(" as ")[0] for n in m.group(1).split(",")}
        if not path.endswith(".antt"):
            continue
        for m in DEFINED.finditer(text):
            if "goal." in m.group(2):
                made.add(m.group(1))
                continue
            found.add(m.group(1))
            if m.group(1)[0].isupper():
                camel.add(m.group(1))
        if os.path.basename(path) not in ("Answers.antt", "Invariants.antt"):
            for m in BOUND.finditer(text):
                found.add(m.group(1) or m.group(2) or m.group(3))
    return {n for n in found - made - library if "-" in n}, camel


def respelled(name, camel):
    if name in camel:
        return "".join(w[:1].upper() + w[1:] for w in name.split("-"))
    return name.replace("-", "_")


def main(root):
    names, camel = own_names(root)
    turn = {n: respelled(n, camel) for n in names}
    taken = set()
    for path in files(root, ".antt"):
        with open(path, encoding="utf-8") as f:
            taken |= set(WHOLE.findall("".join(parts(f.read(), path)[0::2])))
    together = sorted(n for n, to in turn.items() if to in taken and not clash_with_function(root, to))
    if together or len(set(turn.values())) != len(turn):
        print("respell: these names would fall together with others:", ", ".join(together))
        return 1
    changed = 0
    for path in files(root, ".antt", ".rt", ".edit"):
        with open(path, encoding="utf-8") as f:
            text = f.read()
        turns = parts(text, path)
        turns[0::2] = [WHOLE.sub(lambda m: turn.get(m.group(0), m.group(0)), t) for t in turns[0::2]]
        new = "".join(turns)
        if new != text:
            with open(path, "w", encoding="utf-8") as f:
                f.write(new)
            changed += 1
    print(f"respell: {len(turn)} names in {changed} files")
    return 0


def clash_with_function(root, name):
    """Whether a taken name is only that of a function of src/, as it stands in the path of its proof."""
    for path in files(root, ".rt"):
        with open(path, encoding="utf-8") as f:
            if re.search(r"\bfn " + re.escape(name) + r"\b", f.read()):
                return True
    return False


if __name__ == "__main__":
    raise SystemExit(main(sys.argv[1] if len(sys.argv) > 1 else "."))
