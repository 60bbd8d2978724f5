"""Tests of `examples/install.sh` beside a stand-in for `rt`: python3 -m unittest dev/test_install.py"""
import os
import pathlib
import pty
import re
import shutil
import subprocess
import tempfile
import unittest

TOP = pathlib.Path(__file__).resolve().parent.parent
VERSION = re.search('VERSION_TEXT "(.*)"', (TOP / "include/kuldebiq.h").read_text())[1]
INTERFACE = VERSION.rpartition(".")[0]
# Stands in for `rt`: writes what it was asked, where, and keeps of a crate what `rt` keeps.
RT = r"""#!/bin/bash
echo "$(basename "$PWD"): $*" >>"$STAND_IN/asked"
proved() {
  printf 'rt: chose --jobs 1 for %s\nfn %s::a: proved\ncrate %s: modules loaded=0 checked=1\n' $1 $1 $1
  echo 'logic=proved functions=1'
}
case "$*" in
  version) echo 'rattle-kit-13f logic 0' ;;
  doc) echo "$STAND_IN/kit/page.md" ;;
  'all check --jobs '*)
    for folder in crates/*; do
      name=${folder#crates/}
      [ -f "$folder/src/lib.rt" ] || exit 9
      echo "== $name"
      proved "$name"
      mkdir -p "$folder/out/rlib" "$folder/out/incremental"
      echo copied >"$folder/out/rlib/stamp"
    done
    sleep "${STAND_IN_SLEEP:-0}"
    echo '== summary' ;;
  lib)
    proved levels
    proved kuldebiq
    [ -z "${STAND_IN_FAILS:-}" ] || { echo 'fn kuldebiq::a: not proved'; exit 1; }
    mkdir -p out && cp "$STAND_IN/lib.a" out/libkuldebiq.a ;;
esac
"""


@unittest.skipUnless(shutil.which("cc") and shutil.which("ar"), "there is no C compiler")
class Install(unittest.TestCase):
    def setUp(self):
        room = tempfile.TemporaryDirectory()
        self.addCleanup(room.cleanup)
        self.room = pathlib.Path(room.name)
        self.top = self.room / "house"
        for name in ("examples/install.sh", "examples/pack.sh", "dev/steps.sh", "include/kuldebiq.h",
                     "include/kuldebiq.hpp", "crates.txt", "LICENSE"):
            (self.top / name).parent.mkdir(parents=True, exist_ok=True)
            shutil.copy(TOP / name, self.top / name)
        for name in (TOP / "crates").iterdir():
            if name.is_dir():
                self.put(f"house/crates/{name.name}/src/lib.rt", "")
        self.put("lib.c", "int kuldebiq_one(void) { return 1; }\nint other(void) { return 2; }\n")
        self.put("libc.c", "int of_memory(void) { return 3; }\n")
        (self.room / "kit/c").mkdir(parents=True)
        for source, archive in (("lib", "lib.a"), ("libc", "kit/c/liblibc_c.a")):
            subprocess.run(["cc", "-fPIC", "-c", f"{source}.c", "-o", f"{source}.o"], cwd=self.room, check=True)
            subprocess.run(["ar", "rc", archive, f"{source}.o"], cwd=self.room, check=True)
        for name, text in (("rt", RT), ("nproc", "#!/bin/bash\necho 4\n")):
            self.put(f"bin/{name}", text)
            (self.room / "bin" / name).chmod(0o755)
        self.environment = {"PATH": f"{self.room}/bin:{os.environ['PATH']}", "STAND_IN": str(self.room),
                            "TERM": "xterm", "HOME": str(self.room)}

    def put(self, name, text):
        (self.room / name).parent.mkdir(parents=True, exist_ok=True)
        (self.room / name).write_text(text)

    def run_it(self, *words, **environment):
        return subprocess.run([self.top / "examples/install.sh", *words], cwd=self.room,
                              env={**self.environment, **environment}, stdout=subprocess.PIPE,
                              stderr=subprocess.PIPE, text=True)

    def asked(self):
        return [it for it in (self.room / "asked").read_text().splitlines()
                if not it.endswith((": version", ": doc"))]

    def test_what_is_put_where(self):
        ran = self.run_it("there")
        self.assertEqual((ran.returncode, ran.stdout), (0, ""), ran.stderr)
        there = self.room / "there"
        found = sorted(str(it.relative_to(there)) for it in there.rglob("*") if not it.is_dir())
        self.assertEqual(found, ["include/kuldebiq.h", "include/kuldebiq.hpp",
                                 "lib/cmake/kuldebiq/kuldebiq-config-version.cmake",
                                 "lib/cmake/kuldebiq/kuldebiq-config.cmake", "lib/libkuldebiq.a",
                                 "lib/libkuldebiq.so", f"lib/libkuldebiq.so.{INTERFACE}",
                                 "lib/pkgconfig/kuldebiq.pc"])
        names = subprocess.run(["nm", "-D", "--defined-only", there / "lib/libkuldebiq.so"],
                               stdout=subprocess.PIPE, text=True, check=True).stdout
        self.assertEqual(sorted(it.split()[-1] for it in names.splitlines()),
                         [f"KULDEBIQ_{INTERFACE}", f"kuldebiq_one@@KULDEBIQ_{INTERFACE}"])
        for name in ("pkgconfig/kuldebiq.pc", "cmake/kuldebiq/kuldebiq-config.cmake"):
            text = (there / "lib" / name).read_text()
            self.assertNotIn(str(self.room), text)
            self.assertNotIn("rpath", text)

    def test_destdir(self):
        ran = self.run_it("/usr/local", DESTDIR="staged")
        self.assertEqual(ran.returncode, 0, ran.stderr)
        pc = self.room / "staged/usr/local/lib/pkgconfig/kuldebiq.pc"
        self.assertIn("prefix=${pcfiledir}/../..\n", pc.read_text())
        self.assertNotIn("staged", pc.read_text())

    def test_the_archive(self):
        ran = subprocess.run([self.top / "examples/pack.sh", "packed"], cwd=self.room, env=self.environment,
                             stdout=subprocess.PIPE, stderr=subprocess.PIPE, text=True)
        self.assertEqual((ran.returncode, ran.stdout), (0, f"packed/kuldebiq-{VERSION}-linux-x86_64.tar.gz\n"))
        empty = self.room / "empty"
        empty.mkdir()
        subprocess.run(["tar", "-C", empty, "-xzf", self.room / ran.stdout.strip()], check=True)
        there = empty / f"kuldebiq-{VERSION}-linux-x86_64"
        self.assertEqual(sorted(it.name for it in there.iterdir()), ["LICENSE", "include", "lib"])
        self.put("user/CMakeLists.txt", f"""
            cmake_minimum_required(VERSION 3.16)
            project(user C)
            find_package(kuldebiq {INTERFACE} REQUIRED)
            add_executable(user user.c)
            target_link_libraries(user kuldebiq::kuldebiq)
        """)
        self.put("user/user.c", '#include <kuldebiq.h>\nint kuldebiq_one(void);\n'
                                'int main(void) { return kuldebiq_one() - 1; }\n')
        if shutil.which("pkg-config"):
            flags = subprocess.run(["pkg-config", "--cflags", "--libs", "kuldebiq"], stdout=subprocess.PIPE,
                                   env={**self.environment, "PKG_CONFIG_PATH": there / "lib/pkgconfig"},
                                   text=True, check=True).stdout.split()
            subprocess.run(["cc", "user/user.c", *flags, "-o", "program"], cwd=self.room, check=True)
            subprocess.run([self.room / "program"], env={"LD_LIBRARY_PATH": there / "lib"}, check=True)
        if shutil.which("cmake"):
            for words in (["-S", "user", "-B", "built", f"-DCMAKE_PREFIX_PATH={there}"], ["--build", "built"]):
                subprocess.run(["cmake", *words], cwd=self.room, check=True, stdout=subprocess.DEVNULL)
            subprocess.run([self.room / "built/user"], check=True)

    def test_crates_are_proved_side_by_side_once(self):
        ran = self.run_it("there")
        self.assertRegex(self.asked()[0], "^copy: all check --jobs [234]$")
        self.assertEqual(self.asked()[1:], ["kuldebiq: lib"])
        self.assertNotIn("side_by_side", ran.stderr)
        for name in ("budget", "hints", "piece_join", "levels", "kuldebiq"):
            self.assertIn(f"kuldebiq: {name} is proved\n", ran.stderr)
        # What doesn't stand on `levels` is taken from the copy.
        for name, is_taken in (("budget", True), ("hints", True), ("levels", False), ("near", False)):
            stamp = self.top / f"crates/{name}/out/rlib/stamp"
            self.assertEqual(stamp.exists(), is_taken, name)
        (self.room / "asked").unlink()
        self.run_it("there")
        self.assertEqual(self.asked(), ["kuldebiq: lib"])

    def test_a_crate_that_is_not_proved(self):
        ran = self.run_it("there", STAND_IN_FAILS="1")
        self.assertEqual(ran.returncode, 1)
        self.assertIn("fn kuldebiq::a: not proved", ran.stderr)
        self.assertIn("the library was not built", ran.stderr)
        self.assertFalse((self.room / "there/lib").exists())

    def test_where_there_is_no_rt(self):
        (self.room / "bin/rt").unlink()
        ran = self.run_it("there", PATH=f"{self.room}/bin:/usr/bin:/bin")
        self.assertEqual(ran.returncode, 1)
        self.assertIn("kuldebiq: there is no `rt` on the PATH. It is the tool of the Rattle", ran.stderr)

    def test_a_terminal_shows_how_far_it_is(self):
        master, slave = pty.openpty()
        ran = subprocess.Popen([self.top / "examples/install.sh", "there"], cwd=self.room, stderr=slave,
                               env={**self.environment, "STAND_IN_SLEEP": "4"})
        os.close(slave)
        seen = b""
        while True:
            try:
                seen += os.read(master, 4096)
            except OSError:
                break
        os.close(master)
        self.assertEqual(ran.wait(), 0)
        self.assertRegex(seen, rb"kuldebiq: proving side by side, \d+ of [1-9]\d* crates done, \d+:\d\d")


if __name__ == "__main__":
    unittest.main()
