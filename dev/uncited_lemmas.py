#!/usr/bin/env python3
"""Lists the lemmas that no file names except where they are defined: uncited_lemmas.py.

A lemma is a name at the left end of a line of `crates/*/proofs/`, with its type behind a colon. Answers to goals
(`Answers.antt`, `Invariants.antt`) are asked for by their names and left out. A tactic may use a lemma that no file
names, so check the crate without a lemma before you delete it. Ends with 1 if it lists any.
"""
import pathlib
import re
import sys

TOP = pathlib.Path(__file__).resolve().parent.parent
NAME = re.compile(r"^(?:abbrev |unfoldable )?(?:pub )?([^\s:(){}|=]+) : ", re.M)
WORD = re.compile(r"[^\s(){}\[\],;.:|=∙→λ×]+")


def main():
    texts = {path: path.read_text() for ending in ("*.antt", "*.rt") for path in sorted(TOP.glob(f"crates/*/**/{ending}"))}
    named = {}
    for path, text in texts.items():
        for number, line in enumerate(text.split("\n"), 1):
            for word in WORD.findall(line):
                named.setdefault(word, []).append((path, number))
    uncited = []
    for path, text in texts.items():
        if path.suffix != ".antt" or "proofs" not in path.parts or path.name in ("Answers.antt", "Invariants.antt"):
            continue
        for found in NAME.finditer(text):
            name = found.group(1)
            line = text.count("\n", 0, found.start()) + 1
            # Its type, and the left sides of its equations, begin a line with its name.
            starts = re.compile(rf"^(?:abbrev |unfoldable )?(?:pub )?{re.escape(name)}(?:\s|$)|^unfolding ")
            lines = text.split("\n")
            others = [(p, n) for p, n in named.get(name, []) if p != path or not starts.match(lines[n - 1])
                      or lines[n - 1].split(name, 1)[1].find(f" {name} ") >= 0]
            if not others:
                uncited.append(f"{path.relative_to(TOP)}:{line} {name}")
    print("\n".join(uncited))
    return 1 if uncited else 0


if __name__ == "__main__":
    sys.exit(main())
