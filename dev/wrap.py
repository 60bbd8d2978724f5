#!/usr/bin/env python3
"""Wraps the documents at 100 characters: wrap.py [--check] [FILE ..], all *.md without names.

Paragraphs, list items and quotations that have a longer line are filled anew, and no others. Rows of
tables, code and headings stay. A stretch of code in a line isn't divided unless it is long. With
--check it writes nothing: it prints each longer line that isn't a table's row, and ends with 1.
"""
import pathlib
import re
import subprocess
import sys

TOP = pathlib.Path(__file__).resolve().parent.parent
WIDTH = 100
# The longest stretch of code that isn't divided.
WHOLE = 60
MARKER = re.compile(r"(\s*)([-*+]|\d+[.)])(\s+)")
# What would begin a list, a heading, a quotation or a table at the left end of a line.
BEGINS = re.compile(r"[-+*]$|\d+[.)]$|#+$|[>|]|=+$|-{2,}$|```")


def is_text(line):
    return bool(line.strip()) and not re.match(r"\s*(\||#{1,6} |```|<|-{3,}$)", line)


def words_of(text):
    """The words of a paragraph, stretches of code whole, and what mustn't begin a line joined to
    the word before it."""
    text = " ".join(text.split())
    text = re.sub(r"`[^`]*`", lambda code: code.group().replace(" ", "\0")
                  if len(code.group()) <= WHOLE else code.group(), text)
    words = []
    for word in text.split(" "):
        if words and BEGINS.match(word):
            words[-1] += " " + word
        else:
            words.append(word)
    return [word.replace("\0", " ") for word in words]


def filled(words, first, rest):
    lines, line = [], first
    for word in words:
        empty = line in (first, rest)
        if not empty and len(line) + 1 + len(word) > WIDTH:
            lines.append(line)
            line, empty = rest, True
        line += word if empty else " " + word
    return lines + [line]


def wrapped(block):
    """A paragraph or a list item, whose lines are given."""
    if all(len(line) <= WIDTH for line in block):
        return block
    quoted = re.match(r"\s*> ?", block[0])
    if quoted:
        mark = quoted.group()
        text = " ".join(line.removeprefix(mark.rstrip()).strip() for line in block)
        return filled(words_of(text), mark, mark)
    marker = MARKER.match(block[0])
    first = marker.group() if marker else re.match(r"\s*", block[0]).group()
    indents = [len(line) - len(line.lstrip()) for line in block[1:]]
    rest = " " * (max(min(indents), len(first)) if indents else len(first))
    text = " ".join([block[0][len(first):]] + block[1:])
    return filled(words_of(text), first, rest)


def blocks(lines):
    """The lines in blocks, each with whether it may be filled anew."""
    block, fenced = [], False
    for line in lines:
        fence = line.lstrip().startswith("```")
        if fence or fenced or not is_text(line):
            if block:
                yield block, True
            block = []
            fenced = fenced != fence
            yield [line], False
            continue
        quote = line.lstrip().startswith(">")
        if block and (MARKER.match(line) or quote != block[0].lstrip().startswith(">")):
            yield block, True
            block = []
        block.append(line)
    if block:
        yield block, True


def main():
    names = [word for word in sys.argv[1:] if word != "--check"]
    if not names:
        listed = ["git", "-C", str(TOP), "ls-files", "*.md"]
        names = [TOP / name for name in subprocess.check_output(listed, text=True).split()]
    status = 0
    for path in map(pathlib.Path, names):
        before = path.read_text()
        made = [line for block, fills in blocks(before.split("\n"))
                for line in (wrapped(block) if fills else block)]
        after = "\n".join(made)
        if re.sub(r"(?m)^\s*>", "", before).split() != re.sub(r"(?m)^\s*>", "", after).split():
            sys.exit(f"{path}: words would change")
        if "--check" not in sys.argv[1:]:
            if after != before:
                path.write_text(after)
            continue
        for number, line in enumerate(before.split("\n"), 1):
            if len(line) > WIDTH and not line.startswith("|"):
                print(f"{path}:{number}: {len(line)} characters")
                status = 1
    return status


if __name__ == "__main__":
    sys.exit(main())
