#!/usr/bin/env python3
"""Compares the examples of the READMEs with the tests that they quote: readme_examples.py [--list]

The test `NAME_example` in `readme_examples.rt` of a crate of tests is the example of the crate
NAME: the first block of Rust of its README is the test's body, word for word, and each block of the
README at the top is the body of some such test. A block may be a whole function with `use` lines
before it; then its body is compared. Prints a line for each block that differs, and ends with 1 if
there is one. With --list it also prints the READMEs whose example is in no test.
"""
import pathlib
import re
import sys
import textwrap

TOP = pathlib.Path(__file__).resolve().parent.parent
TEST = re.compile(r"^fn (\w+)_example\([^\n]*\{\n(.*?)^\}$", re.M | re.S)
BLOCK = re.compile(r"^```rust\n(.*?)^```$", re.M | re.S)
# A block that is one whole function, and what is in it.
FUNCTION = re.compile(r"\A(?:use [^\n]*;\n|\n)*fn \w+\([^\n]*\{\n(.*?)^\}\n\Z", re.M | re.S)


def body(block):
    """What a block has inside of its function, if it has one."""
    whole = FUNCTION.match(block)
    return textwrap.dedent(whole.group(1)) if whole else block


def main():
    tests = sorted(TOP.glob("crates/*_tests/src/readme_examples.rt"))
    bodies = dict(found for test in tests for found in TEST.findall(test.read_text()))
    quoted = {TOP / "crates" / crate / "README.md": crate for crate in bodies}
    drifted = []
    whole = [textwrap.dedent(body) for body in bodies.values()]
    for block in BLOCK.findall((TOP / "README.md").read_text()):
        if body(block) not in whole:
            drifted.append(f"README.md: an example is in no test: {block.splitlines()[0]}")
    for readme, crate in quoted.items():
        block = BLOCK.search(readme.read_text())
        if block is None or body(block.group(1)) != textwrap.dedent(bodies[crate]):
            name = readme.relative_to(TOP)
            drifted.append(f"{name}: its first example isn't the body of {crate}_example")
    if not bodies:
        drifted.append("no example is in a test")
    if "--list" in sys.argv[1:]:
        for readme in sorted(TOP.glob("crates/*/README.md")):
            if readme not in quoted and BLOCK.search(readme.read_text()):
                print(f"{readme.relative_to(TOP)}: no test has its example")
    if drifted:
        print("\n".join(drifted))
    return 1 if drifted else 0


if __name__ == "__main__":
    sys.exit(main())
