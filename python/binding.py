"""Where the library is, how it is made, and what of its header Python calls.

The library lies under KULDEBIQ_PREFIX, as `examples/install.sh` puts it, or else under `out` beside
this file, where it is made if it isn't there or the sources are newer. The declarations are those
of the header itself, read by the C preprocessor.
"""

import os
import platform
import re
import shlex
import subprocess
import sys
import sysconfig
from pathlib import Path

from cffi import FFI

HERE = Path(__file__).resolve().parent
GIVEN = os.environ.get("KULDEBIQ_PREFIX")
PREFIX = Path(GIVEN).resolve() if GIVEN else HERE / "out"
INSTALL = HERE.parent / "examples" / "install.sh"
ARCHIVE = PREFIX / "lib" / "libkuldebiq.a"
OWN_HEADER = PREFIX / "include" / "kuldebiq.h"
CLONE_HEADER = HERE.parent / "include" / "kuldebiq.h"


def header():
    """The text of the header: the clone's, where the library is made of the clone."""
    is_made_here = not GIVEN and CLONE_HEADER.exists()
    path = CLONE_HEADER if is_made_here else OWN_HEADER
    if not path.exists():
        sys.exit(
            f"kuldebiq: there is no {path}: install from a clone, by pip 21.3 or later, or set"
            " KULDEBIQ_PREFIX to the folder where examples/install.sh has put the library"
        )
    return path.read_text(encoding="utf-8")


def version():
    return re.search(r'^#define KULDEBIQ_VERSION_TEXT "(.*)"', header(), re.MULTILINE).group(1)


def platform_tag():
    """The platform of a wheel that is made here: it needs the C library that it is linked with."""
    name, libc_version = platform.libc_ver()
    if name != "glibc":
        return re.sub(r"\W", "_", sysconfig.get_platform())
    major, minor = libc_version.split(".")[:2]
    return f"manylinux_{major}_{minor}_{platform.machine()}"


def is_made():
    """Whether the library is there, and of the header and the sources that are here."""
    if not ARCHIVE.exists() or not OWN_HEADER.exists():
        return False
    if OWN_HEADER.read_text(encoding="utf-8") != header():
        return False
    made = ARCHIVE.stat().st_mtime
    sources = () if GIVEN else (HERE.parent / "crates").glob("*/src/**/*.rt")
    return all(source.stat().st_mtime <= made for source in sources)


def make_library():
    """Has the clone's own script make the library, where that isn't done."""
    if is_made():
        return
    if GIVEN or not INSTALL.exists():
        sys.exit(f"kuldebiq: there is no library under {PREFIX}: examples/install.sh makes one")
    with terminal() as told:
        print(
            "\nkuldebiq: the library of these sources isn't there: examples/install.sh proves its"
            f"\nkuldebiq: crates and builds it under {PREFIX}, in minutes where they"
            "\nkuldebiq: are proved on this machine, and else in some twenty-five",
            file=told,
            flush=True,
        )
        elsewhere = {name: value for name, value in os.environ.items() if name != "DESTDIR"}
        done = subprocess.run([INSTALL, PREFIX], stdout=told, stderr=told, env=elsewhere)
    if done.returncode != 0:
        sys.exit("kuldebiq: examples/install.sh made no library")


def terminal():
    """The terminal, past an installer that shows nothing of a build; or else standard error."""
    try:
        return open("/dev/tty", "w")
    except OSError:
        return open(sys.stderr.fileno(), "w", closefd=False)


def declarations():
    """The declarations of the header, as the preprocessor leaves them without its includes."""
    text = re.sub(r"^#include.*$", "", header(), flags=re.MULTILINE)
    compiler = shlex.split(os.environ.get("CC") or sysconfig.get_config_var("CC") or "cc")
    done = subprocess.run(
        [*compiler, "-E", "-P", "-std=c99", "-U__GNUC__", "-x", "c", "-"],
        input=text,
        capture_output=True,
        check=True,
        text=True,
    )
    bodies_gone = re.sub(r"static inline (.*?\)) \{.*?\n\}", r"\1;", done.stdout, flags=re.DOTALL)
    constants = "#define KULDEBIQ_VERSION ...\nstatic char *const KULDEBIQ_VERSION_TEXT;\n"
    return f"{bodies_gone}\n{constants}"


ffibuilder = FFI()
ffibuilder.cdef(declarations())
ffibuilder.set_source(
    "kuldebiq._calls",
    '#include "kuldebiq.h"',
    include_dirs=[str(PREFIX / "include")],
    extra_objects=[str(ARCHIVE)],
    extra_link_args=["-Wl,--exclude-libs,ALL"],
    depends=[str(ARCHIVE), str(OWN_HEADER)],
)
