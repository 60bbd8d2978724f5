#!/usr/bin/env python3
"""Fails if a decision is cited that docs/DECISIONS.md doesn't have: cited_decisions.py

An entry of that page begins with its numbers in bold, `- **49, 50. ..`. A citation is `decision 49`
anywhere, `entry 49 of docs/DECISIONS.md` or `entries 49 and 50 of ..` in any text, over lines too,
and each `entry 49` of docs/DECISIONS.md and bench/TRIALS.md themselves. Prints each dead citation,
and each number that two entries have, and ends with 1 if there is one.
"""
import pathlib
import re
import subprocess
import sys

TOP = pathlib.Path(__file__).resolve().parent.parent
PAGE = "docs/DECISIONS.md"
HEAD = re.compile(r"^- \*\*(\d+(?:, \d+)*)\. ", re.M)
NUMBERS = r"(\d+(?:(?:,|,?\s+and)\s+\d+)*)"
# What may stand between the words of a citation: blanks, and the marks of a comment or of code.
GAP = r"[\s/#>`]+"
DECISION = re.compile(rf"\bdecisions?{GAP}{NUMBERS}", re.I)
ENTRY = re.compile(rf"\bentr(?:y|ies){GAP}{NUMBERS}", re.I)
ENTRY_OF = re.compile(ENTRY.pattern + rf"{GAP}of{GAP}(?:docs/)?DECISIONS", re.I)
# What stands before a comment, in a line of a source.
CODE = {".rt": re.compile(r"^(?:(?!//).)*", re.M), ".antt": re.compile(r"^(?:(?!--).)*", re.M)}


def citations(name, text):
    """The citations in a file's text, each as its line and the numbers that it names."""
    own = name in (PAGE, "bench/TRIALS.md")
    for pattern in (DECISION, ENTRY if own else ENTRY_OF):
        for found in pattern.finditer(text):
            line = text.count("\n", 0, found.start()) + 1
            yield line, [int(number) for number in re.findall(r"\d+", found.group(1))]


def main():
    heads = HEAD.findall((TOP / PAGE).read_text())
    numbers = [int(number) for head in heads for number in head.split(", ")]
    wrong = [f"{PAGE}: {number} stands twice" for number in sorted(set(numbers))
             if numbers.count(number) > 1]
    files = subprocess.run(["git", "ls-files", "-z"], cwd=TOP, check=True, capture_output=True)
    for name in files.stdout.decode().split("\0"):
        path = TOP / name
        if not name or name == "dev/cited_decisions.py" or not path.is_file():
            continue
        try:
            text = path.read_text()
        except UnicodeDecodeError:
            continue
        if path.suffix in CODE:
            text = CODE[path.suffix].sub("", text)
        for line, cited in citations(name, text):
            wrong += [f"{name}:{line}: decision {number} isn't in {PAGE}"
                      for number in cited if number not in numbers]
    if not numbers:
        wrong.append(f"{PAGE} has no entry")
    if wrong:
        print("\n".join(wrong))
    return 1 if wrong else 0


if __name__ == "__main__":
    sys.exit(main())
