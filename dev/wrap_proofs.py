#!/usr/bin/env python3
"""Wraps lines of proofs and specs of more than 120 columns: wrap_proofs.py [--check] [CRATE ..]

CRATE is the name of a crate; without names it is each one. A long line is divided at the spaces
where it falls apart best: outside of brackets rather than in them, behind an arrow, a comma or the
`=` of a clause, before an operator or a case. `rt fmt` then says how far each line is indented; what
is still too long is divided further in, and so on. A long `use` line becomes several of the same
module, and a long comment several lines. No word is changed, added or left out: that is compared at
the end, and a file of which it isn't so is left as it was. With --check it writes nothing: it prints
how many lines of each file are longer, and ends with 1 if one is.
"""
import pathlib
import re
import subprocess
import sys

TOP = pathlib.Path(__file__).resolve().parent.parent
WIDTH = 120
ROUNDS = 8
USE = re.compile(r"((?:unfoldable )?(?:pub )?use [^{}]*)\{([^{}]*)\}$")
OPERATOR = re.compile(r"[^\w\s\"()\[\]{}]+")
TOKEN = re.compile(r'(?:"(?:[^"\\]|\\.)*"|[^\s"])+')
# How badly a line falls apart at a space: behind a word, or before one.
BEHIND = {"in": 0, "→": 1, "↦": 3, "where": 0}
BEFORE = {"∙": 1, "|": 1, "×": 1, "⊎": 1, "∷": 2, "++": 2, "&&": 2, "≡": 4, "<": 6, "≤": 6, "+": 7}
HEAD, COMMA, PART, ARGUMENT, WORD, NEVER = 0, 1, 5, 9, 12, 40
# What a further line costs, what one deeper bracket, and what a line that stays too long.
LINE, DEEPER, TOO_LONG = 3, 4, 100


def files_of(crate):
    return [it for folder in ("proofs", "specs") for it in sorted((crate / folder).rglob("*.antt"))]


def long_lines(text):
    return [line for line in text.split("\n") if len(line) > WIDTH]


def imported(uses):
    """The names that lines of `use` bring in, each with its module."""
    found = []
    for line in uses:
        whole = USE.match(line)
        names = [it.strip() for it in whole[2].split(",")] if whole else [""]
        found += [(whole[1] if whole else line, name) for name in names if name or not whole]
    return found


def words_of(text):
    """What has to stay: the imported names, the words of comments, and the rest without spaces and
    without the commas, semicolons and bars that `rt fmt` puts where a bracket has lines of its own."""
    # A bracket of several lines as one line, so that a line of `use` is whole.
    text = re.sub(r"\{\n([^{}]*)\}", lambda it: "{" + " ".join(it[1].split()) + "}", text)
    is_use = re.compile(r"(unfoldable )?(pub )?use ").match
    uses, rest = ([it for it in text.split("\n") if bool(is_use(it)) == of] for of in (True, False))
    comments = " ".join(it.strip().lstrip("-") for it in rest if it.strip().startswith("--")).split()
    code = "".join("".join(it.split()) for it in rest if not it.strip().startswith("--"))
    code = re.sub(r"[,;](?=[)\]}])", "", code).replace("[|", "[")
    return sorted(imported(uses)), comments, code


def wrapped_use(line, width):
    head, names = USE.match(line).groups()
    parts = [[]]
    for name in (it.strip() for it in names.split(",") if it.strip()):
        if parts[-1] and len(head) + len(", ".join([*parts[-1], name])) + 2 > width:
            parts.append([])
        parts[-1].append(name)
    return [f"{head}{{{', '.join(it)}}}" for it in parts]


def wrapped_comment(line, width):
    indent = line[:len(line) - len(line.lstrip())] + "--"
    made = [indent]
    for word in line.strip()[2:].split():
        if made[-1] != indent and len(made[-1]) + 1 + len(word) > width:
            made.append(indent)
        made[-1] += " " + word
    return made


def evenly(wrapped_at, line):
    """As few lines as can be, and these about as long as one another."""
    fewest = len(wrapped_at(line, WIDTH))
    return next(made for width in range(WIDTH // 2, WIDTH + 1)
                if len(made := wrapped_at(line, width)) == fewest)


def spaces_of(line):
    """Each space between words: where the next one begins, how deep it is in brackets, and how badly
    the line falls apart there."""
    words = list(TOKEN.finditer(line))
    # `rt fmt` puts a bracket that ends a line back behind the word before it.
    while words and words[-1].group() in ("(", "[", "{"):
        words.pop()
    depth, found, is_clause, in_let = 0, [], not re.match(r"\s*(let|record|[|])\s", line), False
    for word, after in zip(words, words[1:]):
        text = word.group()
        bare = re.sub(r'"(?:[^"\\]|\\.)*"', "", text)
        depth += sum(bare.count(it) for it in "([{") - sum(bare.count(it) for it in ")]}")
        in_let = text == "let" or in_let and text != "="
        bad = badness(text, after.group(), is_clause and depth == 0, in_let)
        found.append((after.start(), depth, bad))
        is_clause = is_clause and (depth > 0 or text not in ("=", "let", "in"))
    return found


def badness(word, after, is_clause, in_let):
    if after in ("=", "in", ":", "]", "}", ")") or word in ("let", "λ", "|", "elim", "module", "record"):
        return NEVER
    if word == "→" and in_let:
        return WORD
    if word in BEHIND:
        return BEHIND[word]
    if word == "=":
        return HEAD if is_clause else PART
    if word[-1] in ",;":
        return COMMA
    if after in BEFORE:
        return BEFORE[after]
    if word == ":" or word[-1] == ".":
        return PART
    return ARGUMENT if after[0] == "(" and word not in BEFORE and not OPERATOR.fullmatch(word) else WORD


def divided(line):
    """A line as several, divided no deeper in brackets than needed at all."""
    spaces = [it for it in spaces_of(line) if it[2] < NEVER]
    if not spaces:
        return [line]
    indent = len(line) - len(line.lstrip())
    further = indent + 4
    for deepest in sorted({it[1] for it in spaces}):
        allowed = [it for it in spaces if it[1] <= deepest]
        cut = best_cut(line, allowed, min(it[1] for it in spaces), further)
        if cut:
            ends = [*cut, len(line) + 1]
            return [line[:cut[0] - 1]] + [" " * further + line[low:high - 1]
                                          for low, high in zip(ends, ends[1:])]
    return [line]


def best_cut(line, spaces, least, further):
    """Where to divide at the least cost; nowhere, if that makes no line shorter that is too long."""
    places = [0, *(it[0] for it in spaces), len(line) + 1]
    costs = [0, *(it[2] + DEEPER * (it[1] - least) + LINE for it in spaces), 0]
    best, before = [0] + [None] * (len(places) - 1), [0] * len(places)
    for high in range(1, len(places)):
        for low in range(high):
            width = places[high] - 1 - places[low] + (further if low else 0)
            cost = best[low] + costs[high] + (TOO_LONG + width - WIDTH if width > WIDTH else 0)
            if width < 40 and high < len(places) - 1 and low:
                cost += LINE
            if best[high] is None or cost < best[high]:
                best[high], before[high] = cost, low
    cut, at = [], before[-1]
    while at:
        cut.append(places[at])
        at = before[at]
    return cut[::-1]


def wrapped(text):
    made = []
    for line in text.split("\n"):
        if len(line) <= WIDTH:
            made.append(line)
        elif line.lstrip().startswith("--"):
            made += evenly(wrapped_comment, line)
        elif USE.match(line):
            made += evenly(wrapped_use, line)
        else:
            made += divided(line)
    return "\n".join(made)


def wrap(crate):
    files = {it: it.read_text() for it in files_of(crate)}
    seen = {}
    for _ in range(ROUNDS):
        changed = False
        for path in files:
            text = path.read_text()
            if text != seen.get(path) and long_lines(text):
                seen[path] = text
                path.write_text(wrapped(text))
                changed = True
        if not changed:
            break
        subprocess.run(["rt", "fmt"], cwd=crate, check=True, stdout=subprocess.DEVNULL)
    for path, text in files.items():
        if words_of(path.read_text()) != words_of(text):
            path.write_text(text)
            print(f"{path.relative_to(TOP)}: left as it was: words would have changed")


def main():
    check = "--check" in sys.argv[1:]
    names = [it for it in sys.argv[1:] if it != "--check"]
    every = sorted(it for it in (TOP / "crates").iterdir() if it.is_dir())
    crates = [TOP / "crates" / it for it in names] or every
    count = 0
    for crate in crates:
        if not check:
            wrap(crate)
        for path in files_of(crate):
            lines = long_lines(path.read_text())
            if lines:
                most = max(map(len, lines))
                print(f"{path.relative_to(TOP)}: {len(lines)} lines, of {most} columns at most")
            count += len(lines)
    print(f"{count} lines are longer than {WIDTH} columns")
    return 1 if check and count else 0


if __name__ == "__main__":
    sys.exit(main())
