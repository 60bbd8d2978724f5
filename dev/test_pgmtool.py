"""Tests of the script `pgmtool` beside a stand-in for `rt` and for the program: python3 -m unittest dev/test_pgmtool.py"""
import os
import pathlib
import pty
import re
import shutil
import signal
import subprocess
import sys
import tempfile
import time
import unittest

TOP = pathlib.Path(__file__).resolve().parent.parent
sys.path.insert(0, str(TOP / "dev"))
import damaged_files  # noqa: E402
import refused_growths  # noqa: E402

SPECS = TOP / "crates/command_line/specs"

# Stands in for `rt`: each crate's folder has the text and the status of its tests.
RT = r"""#!/bin/bash
case "$*" in
  version) echo "$STAND_IN_KIT logic 0" ;;
  'try --test')
    echo $$ >>"$STAND_IN_LOG"
    trap 'echo ended >>"$STAND_IN_LOG"; exit 143' TERM
    # What it starts is a group of its own.
    [ ! -f slow ] || { set -m; sleep "$(cat slow)" & echo $! >>"$STAND_IN_LOG.below"; wait $!; }
    cat said
    exit "$(cat status)" ;;
  *) echo "stand-in: $*"; exit 9 ;;
esac
"""
PASSED = "running 2 tests\ntest a ... ok\ntest b ... ok\ntest result: ok. 2 passed; 0 failed; 0 ignored\n"
FAILED = ("running 2 tests\ntest a ... ok\ntest b ... FAILED\nseen 3, wanted 4\n"
          "test result: FAILED. 1 passed; 1 failed; 0 ignored\n")


def defined_commands():
    """By name the arguments of each command, as the specification of the definition has them: a
    name, whether it is an option, and its least, greatest and default number."""
    numbers = {}
    for file in [*TOP.glob("crates/options/src/*.rt"), TOP / "crates/exact_cross/src/lib.rt",
                 TOP / "crates/command_line/src/request.rt"]:
        for name, value in re.findall(r"pub const (\w+): u32 = (\w+);", file.read_text()):
            numbers[name] = int(value, 0)
    text = re.sub(r"--.*", "", (SPECS / "Application.antt").read_text())
    rules = dict(re.findall(r"^(\w+_rules?) =(.*(?:\n[ \t]+.*)*)", text, re.M))

    def value(word):
        return numbers[word] if word in numbers else int(word)

    def arguments(term):
        found = []
        for part in re.split(r"∷|\+\+", term):
            part = " ".join(part.split())
            if part in rules:
                found += arguments(rules[part])
            elif one := re.fullmatch(r'positional \(codes "(\w+)"\)', part):
                found.append((one[1], None, None, None))
            elif one := re.fullmatch(r'flag \(codes "(\w+)"\)', part):
                found.append(("--" + one[1], None, None, None))
            elif one := re.fullmatch(r'positional_number \(codes "(\w+)"\) (\w+) (\w+)', part):
                found.append((one[1], value(one[2]), value(one[3]), None))
            elif one := re.fullmatch(r'number \(codes "(\w+)"\) (\w+) (\w+) \(codes "(\d+)"\)', part):
                found.append(("--" + one[1], value(one[2]), value(one[3]), int(one[4])))
            else:
                assert part == "[]", f"this test doesn't read `{part}`"
        return found

    rows = re.findall(r'row \(codes "(\w+)"\) (\w+_rules)', (SPECS / "Commands.antt").read_text())
    return {name: arguments(rules[given]) for name, given in rows}


def lines_of(function):
    said = subprocess.run(["bash", "-c", f'source "{TOP}/dev/words.sh"; {function}'],
                          stdout=subprocess.PIPE, text=True, check=True).stdout
    return [line.split("|") for line in said.splitlines()]


def told_commands():
    """The same, as the tables of the script have them."""
    found = {}
    for words, _ in lines_of("commands"):
        name, *names = words.split()
        found[name] = [(it, None, None, None) for it in names]
    for name, least, most, default, of, _ in lines_of("options"):
        row = (name, *(int(it) if it else None for it in (least, most, default)))
        for command in of.split():
            absent = (name, None, None, None)
            if absent in found[command]:
                found[command].remove(absent)
            found[command].append(row)
    return found


class Words(unittest.TestCase):
    def test_the_tables_are_the_definition(self):
        self.maxDiff = None
        defined, told = defined_commands(), told_commands()
        self.assertEqual(sorted(told), sorted(defined))
        for name, arguments in defined.items():
            self.assertCountEqual(told[name], arguments, name)
        # The order of the names is the order in which they are given.
        for words, _ in lines_of("commands"):
            name, *names = words.split()
            self.assertEqual(names, [it[0] for it in defined[name] if it[0].isupper()])

    def test_the_lines_of_scripts_are_those_of_the_formats(self):
        text = (TOP / "docs/formats.md").read_text().split("## Scripts")[1].split("## Commands")[0]
        told = {}
        for commands, lines in re.findall(r"^\| (`.*`) \| (.*`.*) \|$", text, re.M):
            for command in re.findall(r"`(\w+)`", commands):
                told[command] = re.findall(r"`([a-z]+ [A-Z][^`]*)`", lines)
        told["mix"] = [it for it in told["replay"] if not it.startswith("sweep")]
        found = {command: [] for command in told}
        for line, commands in lines_of("script_lines"):
            for command in commands.split():
                found[command].append(line)
        self.assertEqual(found, told)
        # Those are the commands that take a script.
        self.assertEqual(sorted(found), sorted(words.split()[0] for words, _ in lines_of("commands")
                                               if "SCRIPT" in words))

    def test_the_commands_of_the_formats_are_the_definition(self):
        text = (TOP / "docs/formats.md").read_text().split("## Commands")[1].split("## Printed text")[0]
        told = {}
        for commands, names, options in re.findall(r"^\| (`.*?) \| (.*?) \| (.*) \|$", text, re.M):
            of = re.search(r"as `(\w+)`", options)
            taken = [it for it in told[of[1]] if it[0].startswith("--")] if of else []
            taken += [(name, None, None, None) for name in re.findall(r"\b[A-Z]{4,}\b(?! \()", names)]
            taken += [(name, None, None, None) for name in re.findall(r"flag `(--\w+)`", options)]
            for name, *numbers in re.findall(r"(--\w+|[A-Z]+)`? \((\d+)\.\.(\d+)(?:, (\d+))?\)", names + options):
                taken.append((name, *(int(it) if it else None for it in numbers)))
            told.update({command: taken for command in re.findall(r"`(\w+)`", commands)})
        self.assertEqual(sorted(told), sorted(defined_commands()))
        for name, arguments in defined_commands().items():
            self.assertCountEqual(told[name], arguments, name)

    def test_other_scripts_name_each_command(self):
        defined = defined_commands()
        of_files = [name for name, arguments in defined.items()
                    if any(it[0].isupper() and it[1] is None for it in arguments)]
        self.assertCountEqual(damaged_files.COMMANDS, of_files)
        self.assertEqual({words[0] for words, _ in refused_growths.rows()}, set(defined))
        # A remark is about a command.
        self.assertLessEqual({it[0] for it in lines_of("remarks")}, set(defined))

    def test_the_kit_is_the_one_of_the_readme(self):
        kit = re.search(r"^kit=(\S+)$", (TOP / "dev/steps.sh").read_text(), re.M)[1]
        self.assertIn(f"`{kit}`", (TOP / "README.md").read_text())

    def wrong(self, *words):
        call = ["bash", "-euc", f'source "{TOP}/dev/words.sh"; wrong_word "$@"', "", *words]
        return subprocess.run(call, stdout=subprocess.PIPE, text=True, check=True).stdout.strip()

    def test_names_are_told_from_options(self):
        call = f'source "{TOP}/dev/words.sh"; given_names "$@"'
        for words, names in [("query a --narrow b --eps 3 --windows", "a b"), ("find a --narrow b c", "a b c"),
                             ("relax --pieces 5 a --eps=3 b", "a b"), ("build -- --eps", "--eps")]:
            said = subprocess.run(["bash", "-euc", call, "", *words.split()], stdout=subprocess.PIPE, text=True, check=True)
            self.assertEqual(said.stdout.split(), names.split(), words)

    def test_words_that_are_taken(self):
        for words in ["build f", "build f --eps 0", "build --eps=1048576 f", "build --eps +007 f",
                      "build f --narrow --rec 4", "drill 1 0", "drill 1000000 2147483647",
                      "build -- --eps", "replay s --levels 26", "hints f --eps 3"]:
            self.assertEqual(self.wrong(*words.split()), "", words)

    def test_words_that_are_not(self):
        for words, said in [
                ("replay s --levels 27", "`--levels`: 27 is not from 1 to 26"),
                ("replay s --levels 0", "`--levels`: 0 is not from 1 to 26"),
                ("build f --eps 99999999", "`--eps`: 99999999 is not from 0 to 1048576"),
                ("build f --eps 99999999999999999999",
                 "`--eps`: 99999999999999999999 is not from 0 to 1048576"),
                ("build f --eps ten", "`--eps`: `ten` is no whole number from 0 to 1048576"),
                ("build f --eps -3", "`--eps`: `-3` is no whole number from 0 to 1048576"),
                ("build f --eps", "`--eps` wants a number behind it"),
                ("build f --eps 1 --eps 2", "`--eps` stands twice"),
                ("build f --narrow=1", "`--narrow` takes no value"),
                ("build f --epsilon 3", "`build` has no option `--epsilon`"),
                ("box f s --eps 3", "`box` has no option `--eps`"),
                ("build f -e 3", "`-e`: there are no short options"),
                ("build", "`build` wants FILE, and FILE isn't given"),
                ("query f", "`query` wants FILE SCRIPT, and SCRIPT isn't given"),
                ("build f g", "`g` is a word too many: `build` wants FILE"),
                ("drill 0 1", "N: 0 is not from 1 to 1000000"),
                ("drill 5 x", "SEED: `x` is no whole number from 0 to 2147483647")]:
            self.assertEqual(self.wrong(*words.split()), said, words)


def is_running(pid):
    try:
        # One whose end nobody has asked for is no more.
        return pathlib.Path(f"/proc/{pid}/stat").read_text().rsplit(")", 1)[1].split()[0] != "Z"
    except FileNotFoundError:
        return False


class House:
    """A folder with the script, and stand-ins."""

    def __init__(self, folder):
        self.top = pathlib.Path(folder)
        for name in ("pgmtool", "dev/words.sh", "dev/steps.sh", "include/kuldebiq.h", "crates.txt"):
            (self.top / name).parent.mkdir(exist_ok=True)
            shutil.copy(TOP / name, self.top / name)
        self.bin = self.top / "bin"
        self.bin.mkdir()
        for name in "awk bash basename cat chmod cut dirname find grep head mkdir mktemp nproc od ps \
                readlink realpath rm sed sleep sort stat tail touch tput tr wc".split():
            (self.bin / name).symlink_to(shutil.which(name))
        self.log = self.top / "log"
        self.log.write_text("")
        self.environment = {"PATH": str(self.bin), "TERM": "xterm", "STAND_IN_LOG": str(self.log),
                            "STAND_IN_KIT": "rattle-kit-13f"}
        # What the script runs as the proved program, newer than all sources.
        (self.top / "crates/pgmtool/src").mkdir(parents=True)
        self.put("crates/pgmtool/src/main.rt", "")

    def put(self, name, text, is_run=False):
        file = self.top / name
        file.parent.mkdir(parents=True, exist_ok=True)
        file.write_text(text)
        if is_run:
            file.chmod(0o755)

    def rt(self):
        self.put("bin/rt", RT, is_run=True)

    def program(self, text):
        for part in ("specs", "proofs"):
            (self.top / "crates/pgmtool" / part).mkdir(exist_ok=True)
        self.put("crates/pgmtool/out/pgmtool", "#!/bin/bash\n" + text, is_run=True)

    def tested(self, name, said, status=0, slow=None):
        self.put(f"crates/{name}/src/rows/more.rt", "#[test]\nfn a() {}\n")
        self.put(f"crates/{name}/said", said)
        self.put(f"crates/{name}/status", str(status))
        if slow:
            self.put(f"crates/{name}/slow", str(slow))

    def run(self, *words, **how):
        return subprocess.run([self.top / "pgmtool", *words], env=self.environment, cwd="/",
                              stdin=subprocess.DEVNULL, stdout=subprocess.PIPE,
                              stderr=subprocess.PIPE, text=True, **how)


class Script(unittest.TestCase):
    def setUp(self):
        room = tempfile.TemporaryDirectory()
        self.addCleanup(room.cleanup)
        self.house = House(room.name)

    def test_version_and_help_build_nothing(self):
        version = self.house.run("--version")
        self.assertEqual((version.returncode, version.stderr), (0, ""))
        self.assertRegex(version.stdout, r"\Apgmtool \d+\.\d+\.\d+\n\Z")
        self.assertEqual(self.house.run("help", "box").returncode, 0)
        wrong = self.house.run("biuld")
        self.assertEqual((wrong.returncode, wrong.stdout), (2, "fault usage\n"))
        self.assertIn("`biuld` is no command", wrong.stderr)

    def test_where_there_is_no_rt(self):
        for words in (["test"], ["prove"], ["build", "f"]):
            ran = self.house.run(*words)
            self.assertEqual((ran.returncode, ran.stdout), (1, ""), words)
            self.assertIn("the tool of the Rattle kit", ran.stderr)

    def test_another_kit_is_told(self):
        self.house.rt()
        self.house.tested("a_tests", PASSED)
        self.assertNotIn("another kit", self.house.run("test").stderr)
        self.house.environment["STAND_IN_KIT"] = "rattle-kit-99"
        self.assertIn("another kit", self.house.run("test").stderr)

    def test_tests_that_pass(self):
        self.house.rt()
        for name in ("a_tests", "b_tests", "c"):
            self.house.tested(name, PASSED)
        self.house.put("crates/untested/src/lib.rt", "// no #[test] here\n")
        ran = self.house.run("test")
        self.assertEqual(ran.returncode, 0, ran.stderr)
        lines = ran.stdout.splitlines()
        self.assertCountEqual(lines[:3], ["a_tests: 2 passed", "b_tests: 2 passed", "c: 2 passed"])
        self.assertEqual(lines[3:], ["6 passed, 0 failed",
                                     "the tests ran unproved: nothing was proved by this"])

    def test_a_test_that_fails(self):
        self.house.rt()
        self.house.tested("a_tests", PASSED)
        self.house.tested("b_tests", FAILED, 1)
        ran = self.house.run("test")
        self.assertEqual(ran.returncode, 1)
        self.assertEqual(ran.stdout.splitlines()[:2], ["a_tests: 2 passed", "3 passed, 1 failed"])
        self.assertIn("b_tests: FAILED, and wrote\n" + FAILED, ran.stderr)

    def test_a_crate_that_is_not_built(self):
        self.house.rt()
        self.house.tested("a_tests", PASSED)
        self.house.tested("b_tests", "error: no such name\n", 2)
        ran = self.house.run("test")
        self.assertEqual(ran.returncode, 1)
        self.assertIn("2 passed, 1 failed\n", ran.stdout)
        self.assertIn("error: no such name", ran.stderr)

    def stopped(self, number, terminal):
        """Stops the script once two crates are tested: both are stopped, and it ends soon."""
        self.house.log.write_text("")
        ran = subprocess.Popen([self.house.top / "pgmtool", "test"], env=self.house.environment,
                               stdout=subprocess.DEVNULL, stderr=terminal)
        for _ in range(100):
            time.sleep(0.1)
            begun = self.house.log.read_text().split()
            if len(begun) == 2:
                break
        self.assertEqual(len(begun), 2)
        time.sleep(0 if terminal == subprocess.DEVNULL else 3)
        ran.send_signal(number)
        self.assertEqual(ran.wait(10), 130)
        self.assertEqual(self.house.log.read_text().split(), [*begun, "ended", "ended"])
        below = pathlib.Path(f"{self.house.log}.below")
        self.assertEqual(len(below.read_text().split()), 2)
        for pid in begun + below.read_text().split():
            self.assertFalse(is_running(pid))
        below.unlink()

    def test_being_stopped_stops_what_runs(self):
        self.house.rt()
        for name in ("a_tests", "b_tests"):
            self.house.tested(name, PASSED, slow=30)
        master, slave = pty.openpty()
        for number in (signal.SIGINT, signal.SIGTERM):
            self.stopped(number, subprocess.DEVNULL)
            self.stopped(number, slave)
        os.close(slave)
        os.close(master)

    def test_a_terminal_shows_how_far_it_is(self):
        self.house.rt()
        self.house.tested("a_tests", PASSED)
        self.house.tested("b_tests", PASSED, slow=4)
        master, slave = pty.openpty()
        ran = subprocess.Popen([self.house.top / "pgmtool", "test"], env=self.house.environment,
                               stdout=subprocess.PIPE, stderr=slave)
        os.close(slave)
        seen = b""
        while True:
            try:
                part = os.read(master, 4096)
            except OSError:
                break
            if not part:
                break
            seen += part
        os.close(master)
        self.assertRegex(seen, rb"1 of 2 crates done, 1 at work, 2 tests passed: b_tests, \d+:\d\d")
        self.assertIn(b"4 passed, 0 failed", ran.communicate()[0])
        self.assertTrue(seen.endswith(b"\r\x1b[K"))

    def test_all_are_stopped_by_a_signal_to_the_whole_group(self):
        """As by Ctrl-C, or by `timeout`, which sends it twice."""
        self.house.rt()
        for name in ("a_tests", "b_tests"):
            self.house.tested(name, PASSED, slow=30)
        below = pathlib.Path(f"{self.house.log}.below")
        for seconds in (0.3, 1.1, 2.2):
            ran = subprocess.run(["timeout", "-s", "INT", str(seconds), self.house.top / "pgmtool", "test"],
                                 env=self.house.environment | {"PATH": f"{self.house.bin}:{os.environ['PATH']}"},
                                 stdin=subprocess.DEVNULL, stdout=subprocess.PIPE,
                                 stderr=subprocess.PIPE, text=True, timeout=20)
            self.assertEqual((ran.returncode, ran.stdout), (124, ""))
            self.assertNotRegex(ran.stderr, r"line \d+:|FAILED|syntax|expected")
            begun = [it for it in self.house.log.read_text().split() if it != "ended"]
            for pid in begun + (below.read_text().split() if below.exists() else []):
                self.assertFalse(is_running(pid))

    def test_without_a_terminal_each_crate_that_ends_is_told(self):
        self.house.rt()
        for name, slow in (("a_tests", None), ("b_tests", 1)):
            self.house.tested(name, PASSED, slow=slow)
        said = self.house.run("test").stderr
        self.assertIn("pgmtool: 1 of 2 crates done, 1 at work, 2 tests passed: b_tests\n", said)
        self.assertIn("pgmtool: 2 of 2 crates done, 0 at work, 4 tests passed\n", said)

    def test_a_line_of_progress_ends_behind_a_word(self):
        for text, said in (("some words", "some words"), ("some more words", "some .."),
                           ("some moreover", "some ..")):
            call = ["bash", "-uc", f'source "{TOP}/dev/steps.sh"; shortened "$1" 10', "", text]
            self.assertEqual(subprocess.check_output(call, text=True), said + "\n")

    def test_words_behind_a_refusal(self):
        self.house.program("echo 'fault usage'; exit 2\n")
        ran = self.house.run("replay", "s", "--levels", "27")
        self.assertEqual((ran.returncode, ran.stdout), (2, "fault usage\n"))
        self.assertIn("pgmtool: `--levels`: 27 is not from 1 to 26\n", ran.stderr)
        self.assertIn("usage: ./pgmtool replay SCRIPT [OPTION ..]", ran.stderr)
        self.assertNotIn("--eps", ran.stderr)
        # A word that isn't text is none of those.
        ran = self.house.run("build", b"\xff")
        self.assertIn("these words are no command", ran.stderr)

    def test_a_text_where_a_key_file_is_asked(self):
        self.house.program("echo 'fault keys short 3'; exit 5\n")
        for head, said in [(b"19\n7\n", "is a text"), ("\ufeffid;1\n".encode(), "is a text"),
                           (b"\x93NUMPY\x01\x00", "is an array that numpy saved"),
                           (b"PAR1\x15\x04", "is a Parquet file")]:
            (self.house.top / "given").write_bytes(head)
            ran = self.house.run("build", "--eps", "3", str(self.house.top / "given"))
            self.assertEqual((ran.returncode, ran.stdout), (5, "fault keys short 3\n"))
            self.assertIn(said, ran.stderr)
            self.assertIn("dev/keys.py", ran.stderr)
        for head in (b"", b"\x01\0\0\0\0\0\0\0"):
            (self.house.top / "given").write_bytes(head)
            ran = self.house.run("build", str(self.house.top / "given"))
            self.assertEqual(ran.returncode, 5)
            self.assertNotIn("keys.py", ran.stderr)

    def test_the_line_and_the_word_of_a_script(self):
        script = self.house.top / "given"
        for text, cause, said in [
                ("find 1\nfind x7\n", "2 number", "line 2 of {}, `find x7`: `x7` is no number\n"),
                ("find 9.990", "1 number", "`9.990` is no whole number from 0 on: "
                 "`dev/keys.py --scale 100 --key 9.990` gives the key\n"),
                ("find -5", "1 number", "`dev/keys.py --signed --key -5` gives the key\n"),
                ("find -.5", "1 number", "`dev/keys.py --scale 10 --signed --key -.5` gives"),
                ("find 2026-02-28", "1 number", "`dev/keys.py --time --key 2026-02-28` gives"),
                (f"find {2**64}\n", "1 number", "a number is out of range\n"),
                ("fint 3\n", "1 word",
                 "`fint` is no command of this script, whose lines are `find Q`\n"),
                ("999\n", "1 word", "`999` is no command of this script, whose lines are `find Q`\n"),
                ("near 1 2 3\n", "1 word", "whose lines are `find Q`; `near` takes it\n"),
                ("\\n 3\n", "1 word", "`\\n` is no command of this script"),
                ("del 3\n", "1 word", "whose lines are `find Q`; `replay` and `mix` take it\n"),
                ("KBQHINT1\0\n", "1 word", "{} is a file of hints, and no script\n"),
                ("find\n", "1 missing", "a number is missing\n"),
                ("find 3 4\n", "1 extra", "a word follows the last number\n")]:
            script.write_text(text)
            self.house.program(f"echo 'fault script {cause}'; exit 6\n")
            ran = self.house.run("query", "keys", str(script))
            self.assertEqual((ran.returncode, ran.stdout), (6, f"fault script {cause}\n"))
            self.assertIn(said.format(script), ran.stderr)
            self.assertNotIn("the line above", ran.stderr)
        # Of a script that is too long no line is named.
        self.house.program("echo 'fault script too long'; exit 6\n")
        said = self.house.run("query", "keys", str(script)).stderr
        self.assertEqual(said, f"pgmtool: {script} is too long for a script, "
                         "which has 67,108,864 bytes at most\n")
        # A coordinate below 0 has no key.
        script.write_text("near -5 0 1\n")
        self.house.program("echo 'fault script 1 number'; exit 6\n")
        said = self.house.run("near", "points", str(script)).stderr
        self.assertIn("`-5` is no whole number from 0 on\n", said)

    def test_another_file_than_a_key_file(self):
        self.house.program("echo 'fault keys unsorted 1 2 1'; exit 5\n")
        given = self.house.top / "given"
        count = (3).to_bytes(8, "little")
        for words, data, said in [
                ("query {} keys", b"# how many\n\nfind 3\n",
                 "it is a script, and FILE and SCRIPT seem swapped: the words are query FILE SCRIPT\n"),
                ("build {}", b"near 1 2 3\n", "it is a script: the words are build FILE\n"),
                ("find {} k s", b"KBQHINT1" + count,
                 "it is a file of hints: the words are find FILE HINTS SCRIPT\n"),
                ("check {} k", b"PGMINDEX" + count,
                 "it is a saved index: the words are check FILE INDEX\n"),
                ("build {}", count + bytes(12), "its size is that of keys of 4 bytes (--narrow)\n"),
                ("build {}", count + bytes(24), "of keys of 8 bytes, and of points, which `box`"),
                ("build {}", count + bytes(48), "its size is that of points, which `box` and `near`"),
                ("box {} s", count + bytes(36), "its size is that of points of 3 coordinates (--dims 3)"),
                ("box {} s --dims 3", count + bytes(24), "points of 2 coordinates (--dims 2), and of keys")]:
            given.write_bytes(data)
            ran = self.house.run(*words.format(given).split())
            self.assertEqual(ran.returncode, 5)
            kind = "point" if words.startswith("box") else "key"
            self.assertIn(f"pgmtool: {given} is no {kind} file: the line above says why\n", ran.stderr)
            self.assertIn(said, ran.stderr)
            self.assertNotIn("keys.py", ran.stderr)
        given.write_bytes(b"1 2\n3 4\n")
        said = self.house.run("near", str(given), "s").stderr
        self.assertIn("is a text, and a point file has numbers of 4 bytes", said)
        self.assertIn(f"python3 dev/keys.py {given} my.points --points\n", said)

    def test_a_crate_that_the_program_does_not_use(self):
        self.house.program("exit 0\n")
        later = time.time() + 9
        self.house.put("crates/mine/src/main.rt", "")
        os.utime(self.house.top / "crates/mine/src/main.rt", (later, later))
        self.assertEqual(self.house.run("build", "f").returncode, 0)
        # One of its own wants it built anew, and there is no `rt`.
        os.utime(self.house.top / "crates/pgmtool/src/main.rt", (later, later))
        self.assertEqual(self.house.run("build", "f").returncode, 1)

    def test_a_line_of_a_crate_that_the_program_does_not_use(self):
        listed = self.house.top / "crates.txt"

        def put(text, seconds):
            listed.write_text(text)
            os.utime(listed, (time.time() + seconds, time.time() + seconds))

        was = listed.read_text()
        put(was, -9)
        self.house.program("exit 0\n")
        self.assertEqual(self.house.run("build", "f").returncode, 0)
        put("# Mine.\n" + was + "\nmine: anyhow hints\n", 9)
        self.assertEqual(self.house.run("build", "f").returncode, 0)
        # One of its own wants it built anew, and there is no `rt`.
        put(was.replace("near: ", "near: anyhow "), 9)
        self.assertEqual(self.house.run("build", "f").returncode, 1)
        put(was, 9)
        self.assertEqual(self.house.run("build", "f").returncode, 0)
        # Of a program that was built since, the lines that it was built of aren't kept.
        later = time.time() + 5
        os.utime(self.house.top / "crates/pgmtool/out/pgmtool", (later, later))
        self.assertEqual(self.house.run("build", "f").returncode, 1)

    def test_which_file_is_not_read(self):
        self.house.program("echo 'fault read'; exit 3\n")
        (self.house.top / "keys").write_bytes(b"")
        top = self.house.top
        for words, said in [
                (["build", "--eps", "3", f"{top}/none"], f"there is no file `{top}/none`"),
                (["query", f"{top}/keys", "--narrow", f"{top}/none"],
                 f"there is no file `{top}/none`"),
                (["query", "--eps=3", "--", f"{top}/keys", f"{top}/dev"],
                 f"`{top}/dev` is a folder"),
                (["build", f"{top}/keys"], "a file could not be read to its end")]:
            ran = self.house.run(*words)
            self.assertEqual((ran.returncode, ran.stdout), (3, "fault read\n"))
            self.assertIn(f"pgmtool: {said}", ran.stderr)

    def test_help_says_which_distance(self):
        self.assertIn("greatest difference of a coordinate", self.house.run("help", "near").stdout)

    def test_the_program_is_passed_on(self):
        self.house.program('echo "$*"; exit 7\n')
        ran = self.house.run("mix", "a b", "--batch", "3")
        self.assertEqual((ran.returncode, ran.stdout), (7, "mix a b --batch 3\n"))


if __name__ == "__main__":
    unittest.main()
