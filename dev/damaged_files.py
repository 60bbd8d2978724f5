#!/usr/bin/env python3
"""Runs the built program on damaged files: damaged_files.py [CASES [SEED [PROGRAM]]].

Good key files, point files, scripts, saved indexes and files of hints are damaged: bytes are
flipped, cut off or doubled, counts lie, and files are random bytes. Each run has an address space of
1 GiB. It has to end with one of the statuses 0 to 8, never by a signal, and with the status's text:
some lines and no fault line, nothing, or one fault line of that status. What `save` writes has to be
an index that `check` passes, and a damaged index that `check` passes has to be the one that `save`
writes. What `find` writes has to be what `query` writes, whatever hints lead it. At the end it
prints how often each status came, and for what.
"""
import collections
import os
import random
import resource
import struct
import subprocess
import sys
import tempfile
from concurrent.futures import ThreadPoolExecutor

TOP = os.path.dirname(os.path.dirname(os.path.abspath(__file__)))
# The first words of the line that a status writes.
FAULTS = {2: b"fault usage", 3: b"fault read", 5: b"fault keys ", 6: b"fault script ",
          7: b"fault full ", 8: b"fault index "}
LIMIT = 1 << 30
MAGIC = b"PGMINDEX"
HINTS = b"KBQHINT1"


def key_file(rng, wide):
    top = 1 << (64 if wide else 32)
    count = rng.randrange(40)
    keys = sorted(rng.choice((rng.randrange(64), rng.randrange(top))) for _ in range(count))
    number = "<Q" if wide else "<I"
    return struct.pack("<Q", len(keys)) + b"".join(struct.pack(number, key) for key in keys)


def point_file(rng, dims):
    points = rng.randrange(30)
    most = {2: 1 << 32, 3: 1 << 21, 4: 1 << 16}[dims]
    numbers = [rng.choice((rng.randrange(8), rng.randrange(most))) for _ in range(points * dims)]
    return struct.pack(f"<Q{len(numbers)}I", points, *numbers)


def number(rng):
    return str(rng.choice((rng.randrange(16), rng.randrange(1 << 64), (1 << 64) - 1)))


def script(rng, verbs):
    lines = []
    for _ in range(rng.randrange(30)):
        verb, count = rng.choice(verbs)
        lines.append(" ".join([verb] + [number(rng) for _ in range(count)]))
    return ("\n".join(lines) + rng.choice(("", "\n", "\r\n"))).encode()


def points_script(rng, command, dims):
    count = 2 * dims if command == "box" else dims + 1
    lines = [" ".join([command] + [str(rng.randrange(16)) for _ in range(count)])
             for _ in range(rng.randrange(6))]
    return ("\n".join(lines) + "\n").encode()


def damaged(rng, good):
    data = bytearray(good)
    for _ in range(rng.randrange(4)):
        how = rng.randrange(7)
        if how == 0 and data:
            data[rng.randrange(len(data))] ^= 1 << rng.randrange(8)
        elif how == 1 and data:
            del data[rng.randrange(len(data)):]
        elif how == 2 and data:
            at = rng.randrange(len(data))
            data[at:at] = data[at:at + rng.randrange(1, 20)]
        elif how == 3 and len(data) >= 8:
            counts = (0, 1, len(data), (1 << 32) - 1, 1 << 32, (1 << 64) - 1)
            data[:8] = struct.pack("<Q", rng.choice(counts))
        elif how == 4:
            data += bytes(rng.randrange(256) for _ in range(rng.randrange(12)))
        elif how == 5 and data:
            letters = (0, 9, 10, 13, 32, 35, 48, 57, 127, 128, 192, 255)
            data[rng.randrange(len(data))] = rng.choice(letters)
        elif how == 6 and rng.random() < 0.2:
            data = bytearray(rng.randrange(256) for _ in range(rng.randrange(200)))
    return bytes(data)


COMMANDS = ("build", "explain", "query", "relax", "save", "check", "hints", "find", "box", "near",
            "replay", "mix")


def random_index(rng):
    """A saved index with any numbers in it, most of whose runs are cut."""
    levels = []
    for _ in range(rng.randrange(3)):
        runs = [struct.pack("<III", *(rng.randrange(1 << rng.choice((3, 32))) for _ in range(3)))
                for _ in range(rng.randrange(4))]
        ends = [rng.choice((b"\0", b"\1", b"\2" + bytes(8))) for _ in runs]
        levels.append(struct.pack("<I", len(runs)) + b"".join(map(bytes.__add__, runs, ends)))
    bounds = [rng.choice((0, 1, 64, 1048576, 1048577)) for _ in range(2)]
    return MAGIC + struct.pack("<III", *bounds, len(levels)) + b"".join(levels)


def random_hints(rng):
    """Hints in the format or in none, with any numbers in them."""
    numbers = [rng.randrange(rng.choice((8, 1 << 64))) for _ in range(rng.randrange(40))]
    return rng.choice((HINTS, b"")) + struct.pack(f"<{len(numbers)}Q", *numbers)


def map_case(rng, command):
    """The words and the script of a command on the map."""
    verbs = [("put", 2), ("del", 1), ("get", 1), ("next", 1), ("count", 2)]
    verbs += [("sweep", 2)] if command == "replay" or rng.random() < 0.05 else []
    words = [command, "script", "--levels", str(rng.choice((1, 2, 26)))]
    if command == "mix" or rng.random() < 0.1:
        words += ["--readers", str(rng.choice((0, 0, 1, 2)))]
    if command == "mix":
        words += ["--senders", str(rng.choice((1, 2, 3)))]
    return words, {"script": damaged(rng, script(rng, verbs))}


def key_case(rng, command, saved):
    """The words and the files of a command on keys; `saved` gives the index that `save` writes."""
    eps = ["--eps", str(rng.choice((0, 1, 4, 64, 1048576)))] if rng.random() < 0.8 else []
    wide = rng.random() < 0.7
    narrow = [] if wide else ["--narrow"]
    keys = key_file(rng, wide)
    files = {"file": damaged(rng, keys)}
    if command == "check":
        files = {"file": keys if rng.random() < 0.9 else files["file"]}
        good = saved(["save", "file"] + eps + narrow, {"file": keys})
        files["index"] = damaged(rng, good if rng.random() < 0.8 else random_index(rng))
        return ["check", "file", "index"] + narrow, files
    if command == "find":
        files = {"file": keys if rng.random() < 0.9 else files["file"]}
        good = saved(["hints", "file"] + eps + narrow, {"file": keys})
        files["hints"] = damaged(rng, good if rng.random() < 0.8 else random_hints(rng))
        files["script"] = damaged(rng, script(rng, [("find", 1)]))
        return ["find", "file", "hints", "script"] + narrow, files
    words = [command, "file"] + eps + narrow
    if command in ("query", "relax"):
        files["script"] = damaged(rng, script(rng, [("find", 1)]))
        words[2:2] = ["script"]
        of_query, of_relax = ([], ["--windows"], ["--buckets", "8"]), ([], ["--pieces", "3"])
        words += rng.choice(of_query if command == "query" else of_relax + (["--pieces", "65536"],))
    return words, files


def case(rng, saved):
    """The words, and the files by their names."""
    command = rng.choice(COMMANDS)
    if command in ("replay", "mix"):
        return map_case(rng, command)
    if command in ("box", "near"):
        dims = rng.choice((2, 3, 4))
        files = {"file": damaged(rng, point_file(rng, dims)),
                 "script": damaged(rng, points_script(rng, command, dims))}
        return [command, "file", "script", "--dims", str(dims)], files
    return key_case(rng, command, saved)


def wrong(status, out, command):
    """What is wrong with how a run ended, if anything."""
    if status not in range(9):
        return f"ended with {status}"
    lines = out.split(b"\n")
    if status == 0 and command == "save":
        return None if out.startswith(MAGIC) else "no saved index"
    if status == 0 and command == "hints":
        return None if out.startswith(HINTS) and len(out) % 8 == 0 else "no hints"
    if status == 0:
        whole = b"fault" not in out and (not out or out.endswith(b"\n"))
        return None if whole else "a text with a fault"
    if status == 1:
        return None if not out else "no memory, and something written"
    fault = FAULTS.get(status)
    if fault is None:
        return f"status {status} on a plain pipe"
    alone = len(lines) == 2 and not lines[1] and lines[0].startswith(fault)
    return None if alone else "not just its fault line"


def wrong_beside(words, files, status, out, saved):
    """What is wrong with a run of `save`, `check` or `find` that ended well, beside another run."""
    if status or words[0] not in ("save", "check", "find"):
        return None
    narrow = ["--narrow"] if "--narrow" in words else []
    if words[0] == "find":
        same = saved(["query", "file", "script"] + narrow, files) == out
        return None if same else "another text than that of query"
    if words[0] == "save":
        files = dict(files, index=out)
        good = saved(["check", "file", "index"] + narrow, files).startswith(b"check levels ")
        return None if good else "a saved index that isn't passed"
    bounds = struct.unpack_from("<II", files["index"], len(MAGIC))
    options = ["--eps", str(bounds[0]), "--rec", str(bounds[1])] + narrow
    same = saved(["save", "file"] + options, files) == files["index"]
    return None if same else "passed, and not the index that is saved"


def limited():
    resource.setrlimit(resource.RLIMIT_AS, (LIMIT, LIMIT))


def run(program, folder, words, files):
    """The status and the output of a run with these files in a folder."""
    for name, data in files.items():
        with open(os.path.join(folder, name), "wb") as file:
            file.write(data)
    done = subprocess.run([program] + words, cwd=folder, stdout=subprocess.PIPE,
                          stderr=subprocess.DEVNULL, preexec_fn=limited, timeout=60)
    return done.returncode, done.stdout


def some_cases(program, seed, cases):
    """How often each command ended with each status, and what was wrong."""
    rng = random.Random(seed)
    seen, found = collections.Counter(), []
    with tempfile.TemporaryDirectory() as folder:
        def saved(words, files):
            return run(program, folder, words, files)[1]

        for _ in range(cases):
            words, files = case(rng, saved)
            status, out = run(program, folder, words, files)
            seen[words[0], status] += 1
            fault = (wrong(status, out, words[0])
                     or wrong_beside(words, files, status, out, saved))
            if fault:
                found.append((fault, words, {name: data.hex() for name, data in files.items()}))
    return seen, found


def main():
    cases = int(sys.argv[1]) if len(sys.argv) > 1 else 100_000
    seed = int(sys.argv[2]) if len(sys.argv) > 2 else 1
    built = os.path.join(TOP, "crates/pgmtool/out/pgmtool")
    program = os.path.abspath(sys.argv[3] if len(sys.argv) > 3 else built)
    workers = os.cpu_count() or 1
    shares = [cases // workers + (i < cases % workers) for i in range(workers)]
    with ThreadPoolExecutor(workers) as pool:
        results = list(pool.map(lambda i: some_cases(program, f"{seed} {i}", shares[i]),
                                range(workers)))
    seen = sum((result[0] for result in results), collections.Counter())
    found = [one for result in results for one in result[1]]
    for (command, status), count in sorted(seen.items()):
        print(f"{command:8} status {status}: {count}")
    for one in found[:20]:
        print("WRONG", *one)
    print(f"{sum(seen.values())} cases, {len(found)} wrong")
    return 1 if found else 0


if __name__ == "__main__":
    sys.exit(main())
