#!/usr/bin/env python3
"""Measures where the gate's time goes: processor seconds of each crate's proof, tests and must-fail edits.

    python3 dev/gate_times.py TABLE rt ci      (at the top of the repository)

Runs the command and reads once a second how much time its provers have used, so it misses what ends sooner than
that. Writes a table to the file TABLE, anew each minute and at the end, the most expensive crate first: seconds of
the proof, of the tests' proof, of the edits' seed (the crate's own proof once more, over which its edits are tried),
of all edits, and of the most expensive edit."""
import collections
import os
import subprocess
import sys
import time

TICK = os.sysconf("SC_CLK_TCK")


def processes():
    """By number: parent, processor seconds with those of children that have ended, words and folder."""
    found = {}
    for number in filter(str.isdigit, os.listdir("/proc")):
        try:
            with open(f"/proc/{number}/stat") as it:
                fields = it.read().rsplit(")", 1)[1].split()
            with open(f"/proc/{number}/cmdline") as it:
                words = it.read().split("\0")[:-1]
            folder = os.readlink(f"/proc/{number}/cwd")
        except OSError:
            continue
        used = sum(int(fields[at]) for at in (11, 12, 13, 14)) / TICK
        found[int(number)] = int(fields[1]), int(fields[19]), used, words, folder
    return found


def prover_of(number, table, root):
    """The prover's process that a process belongs to, if it is below the command: the topmost with a crate's name."""
    top = None
    while number in table and number != root:
        if "--crate-name" in table[number][3]:
            top = number
        number = table[number][0]
    return top if number == root else None


def kind_of(words, folder):
    if "rt-edit-" in folder:
        kept = words[words.index("--incremental") + 1] if "--incremental" in words else ""
        return "seed" if kept.endswith("/seed") else "edit"
    return "tests" if "--test" in words else "proof"


def table_of(seen, seconds):
    """The table, of crate, kind and processor seconds by prover's process."""
    sums, dearest = collections.defaultdict(collections.Counter), collections.Counter()
    for crate, kind, used in seen.values():
        sums[crate][kind] += used
        if kind == "edit":
            dearest[crate] = max(dearest[crate], used)
    lines = ["| Crate | Proof | Tests | Seed | Edits | Dearest edit | All |", "|---|---|---|---|---|---|---|"]
    for crate, by in sorted(sums.items(), key=lambda it: -sum(it[1].values())):
        cells = [by["proof"], by["tests"], by["seed"], by["edit"], dearest[crate], sum(by.values())]
        lines.append(f"| `{crate}` | " + " | ".join(f"{it:.0f}" for it in cells) + " |")
    whole = sum(used for _, _, used in seen.values())
    lines.append(f"{seconds / 60:.0f} minutes, {whole / 60:.0f} minutes of the processors")
    return "\n".join(lines) + "\n"


def watch(path, command):
    """Runs the command, writes the table, and gives the command's status."""
    seen = {}
    began = written = time.time()
    child = subprocess.Popen(command)
    while child.poll() is None:
        table = processes()
        now = collections.Counter()
        for number in table:
            top = prover_of(number, table, child.pid)
            if top is not None:
                now[top] += table[number][2]
        for top, used in now.items():
            _, start, _, words, folder = table[top]
            crate = words[words.index("--crate-name") + 1]
            before = seen.get((top, start), (None, None, 0))[2]
            seen[top, start] = crate, kind_of(words, folder), max(before, used)
        if time.time() - written >= 60:
            written = time.time()
            write(path, seen, written - began)
        time.sleep(1)
    write(path, seen, time.time() - began)
    return child.returncode


def write(path, seen, seconds):
    with open(path, "w") as it:
        it.write(table_of(seen, seconds))


if __name__ == "__main__":
    sys.exit(watch(sys.argv[1], sys.argv[2:]))
