"""Makes the package: the library, where it isn't there, and the binding to it."""

import sys
from pathlib import Path

from setuptools import setup
from setuptools.command.build_ext import build_ext
from setuptools.command.sdist import sdist

sys.path.insert(0, str(Path(__file__).resolve().parent))
import binding  # noqa: E402 (it lies beside this file)


class BuildBinding(build_ext):
    def run(self):
        binding.make_library()
        super().run()


class Sources(sdist):
    """A source package carries the library: there is none of sources that aren't proved."""

    def run(self):
        binding.make_library()
        super().run()


setup(
    version=binding.version(),
    cffi_modules=["binding.py:ffibuilder"],
    cmdclass={"build_ext": BuildBinding, "sdist": Sources},
    options={"bdist_wheel": {"py_limited_api": "cp39", "plat_name": binding.platform_tag()}},
)
