#!/usr/bin/env python3
"""Refuses each growth of the built program in turn: refused_growths.py [PROGRAM].

A library loaded before the C library's `malloc` and its kin refuses the n-th call, for n = 1, 2, ..
until three runs in a row make fewer calls (a run with senders doesn't make the same number each
time). Each run has to end with status 1 and without a byte, or with status 0 and the whole text, if
the refusal only kept a thread from starting or was of memory that the program can do without. What a
text leaves open isn't compared: what readers saw beside the updates, and in which order senders'
updates came. It needs a C compiler.
"""
import os
import subprocess
import sys
import tempfile

TOP = os.path.dirname(os.path.dirname(os.path.abspath(__file__)))
SHIM = r"""
#define _GNU_SOURCE
#include <dlfcn.h>
#include <stdatomic.h>
#include <stdlib.h>
#include <sys/auxv.h>
#include <sys/syscall.h>
#include <unistd.h>
static atomic_long calls;
// Calls of the program's own code count; what the C library takes for itself doesn't.
static int refused(void *caller) {
  Dl_info from, program;
  const char *n = getenv("REFUSE");
  if (!n || !dladdr(caller, &from) || !dladdr((void *)getauxval(AT_ENTRY), &program)) return 0;
  return from.dli_fbase == program.dli_fbase && atomic_fetch_add(&calls, 1) + 1 == atol(n);
}
// The program ends by this call.
void _exit(int status) {
  const char *n = getenv("REFUSE");
  if (n && atomic_load(&calls) < atol(n)) (void)!write(2, "fewer\n", 6);
  syscall(SYS_exit_group, status);
  abort();
}
extern void *__libc_malloc(size_t), *__libc_calloc(size_t, size_t);
extern void *__libc_realloc(void *, size_t), *__libc_memalign(size_t, size_t);
#define OR_REFUSED(call) (refused(__builtin_return_address(0)) ? 0 : call)
void *malloc(size_t n) { return OR_REFUSED(__libc_malloc(n)); }
void *calloc(size_t k, size_t n) { return OR_REFUSED(__libc_calloc(k, n)); }
void *realloc(void *p, size_t n) { return OR_REFUSED(__libc_realloc(p, n)); }
void *aligned_alloc(size_t a, size_t n) { return OR_REFUSED(__libc_memalign(a, n)); }
"""


def rows():
    """Words and what is written to the file SCRIPT: one cut, several levels, points, boxes, updates
    in batches and of senders, drawn inputs, an index that is built, saved and checked, and hints
    that are made and lead. INDEX and HINTS are an index and hints that the program wrote."""
    puts = "".join(f"put {key} {key}\n" for key in range(700))
    dealt = "".join(f"put {key} {key}\n" for key in range(200))
    finds = "find 7\nfind 99991\n"
    primes, two = "data/primes.keys", ["--eps", "4", "--workers", "2"]
    return [
        (["build", primes, *two], None),
        (["explain", "data/four.keys", "--eps", "0", "--rec", "0"], None),
        (["query", primes, "SCRIPT", *two, "--windows"], finds),
        (["query", primes, "SCRIPT", "--eps", "4", "--buckets", "8"], finds),
        (["query", primes, "SCRIPT"], finds),
        (["relax", primes, "data/primes.finds", *two, "--pieces", "5"], None),
        (["box", "data/gaussian.points", "data/gaussian.boxes"], None),
        (["near", "data/gaussian.points", "data/gaussian.centres"], None),
        (["replay", "SCRIPT", "--levels", "4", "--workers", "2"],
         puts + "sweep 100 200\nget 7\nnext 100\ncount 0 999\n"),
        (["replay", "SCRIPT", "--levels", "4", "--workers", "2", "--batch", "99", "--readers", "2"],
         puts + "get 7\nnext 100\n"),
        (["mix", "SCRIPT", "--levels", "2", "--workers", "2", "--senders", "3", "--readers", "2"],
         dealt + "get 7\nnext 100\n"),
        (["save", primes, *two], None),
        (["check", primes, "INDEX"], None),
        (["hints", primes, "--eps", "4"], None),
        (["find", primes, "HINTS", "SCRIPT"], finds),
        (["drill", "300", "7", "--workers", "2"], None),
    ]


def settled(text):
    """The text without what is left open."""
    left_open = (b"reader", b"from ")
    return b"".join(line for line in text.splitlines(True)
                    if not line.startswith(left_open) or b" last " in line)


def run(program, words, refuse, shim):
    env = dict(os.environ, LD_PRELOAD=shim, **({"REFUSE": str(refuse)} if refuse else {}))
    return subprocess.run([program] + words, cwd=TOP, env=env, stdout=subprocess.PIPE,
                          stderr=subprocess.PIPE, timeout=60)


def refused_in_turn(program, words, shim):
    """How many growths a run has, how many refusals ended with status 1, how many with 0, and how
    many with anything else, each of which is printed."""
    first = run(program, words, None, shim)
    if first.returncode:
        print(f"WRONG {words}: status {first.returncode} without a refusal")
        return 0, 0, 0, 1
    whole = settled(first.stdout)
    refuse, passed, out_of_memory, done, failed = 0, 0, 0, 0, 0
    while passed < 3:
        refuse += 1
        ended = run(program, words, refuse, shim)
        is_whole = ended.returncode == 0 and settled(ended.stdout) == whole
        fewer = b"fewer" in ended.stderr
        passed = passed + 1 if fewer else 0
        if not fewer and ended.returncode == 1 and not ended.stdout:
            out_of_memory += 1
        elif is_whole:
            done += not fewer
        else:
            failed += 1
            size = len(ended.stdout)
            print(f"WRONG {words} growth {refuse}: status {ended.returncode}, {size} bytes")
    return refuse - passed, out_of_memory, done, failed


def main():
    built = os.path.join(TOP, "crates/pgmtool/out/pgmtool")
    program = os.path.abspath(sys.argv[1] if len(sys.argv) > 1 else built)
    failed = 0
    with tempfile.TemporaryDirectory() as folder:
        shim, source = os.path.join(folder, "refuse.so"), os.path.join(folder, "refuse.c")
        with open(source, "w") as file:
            file.write(SHIM)
        subprocess.run(["cc", "-O2", "-shared", "-fPIC", "-o", shim, source, "-ldl"], check=True)
        files = {name: os.path.join(folder, name.lower()) for name in ("SCRIPT", "INDEX", "HINTS")}
        for name, command in (("INDEX", "save"), ("HINTS", "hints")):
            with open(files[name], "wb") as file:
                made = [program, command, "data/primes.keys", "--eps", "4"]
                file.write(subprocess.run(made, cwd=TOP, stdout=subprocess.PIPE, check=True).stdout)
        for words, script in rows():
            if script is not None:
                with open(files["SCRIPT"], "w") as file:
                    file.write(script)
            words = [files.get(word, word) for word in words]
            growths, out_of_memory, done, wrong = refused_in_turn(program, words, shim)
            failed += wrong
            print(f"{words[0]:8} {growths} growths: {out_of_memory} ended with status 1 and no "
                  f"byte, {done} with 0 and the whole text", flush=True)
    print("refused_growths:", "ok" if not failed else f"{failed} wrong")
    return 1 if failed else 0


if __name__ == "__main__":
    sys.exit(main())
