"""Builds the package. It has the library inside that SAM_BUNDLE names, else the one that the repository has built, and then needs none that
is installed. With an empty SAM_BUNDLE it has none inside."""
import os
import shutil
from pathlib import Path

from setuptools import Distribution, setup
from setuptools.command.build_py import build_py

try:
    from setuptools.command.bdist_wheel import bdist_wheel
except ImportError:  # of setuptools before 70.1
    from wheel.bdist_wheel import bdist_wheel

BUILT = Path(__file__).resolve().parents[2] / "out" / "libsulgrevad.so"
BUNDLED = os.environ.get("SAM_BUNDLE", str(BUILT) if BUILT.exists() else "")


class BuildPackage(build_py):
    def run(self):
        super().run()
        if BUNDLED:
            shutil.copy(BUNDLED, os.path.join(self.build_lib, "sulgrevad", "libsulgrevad.so"))


class BuildWheel(bdist_wheel):
    """A wheel with the library is for one platform, and for any Python 3: ctypes loads it."""

    def get_tag(self):
        tag = super().get_tag()
        return ("py3", "none", tag[2]) if BUNDLED else tag


class Package(Distribution):
    def has_ext_modules(self):
        return bool(BUNDLED)


setup(cmdclass={"build_py": BuildPackage, "bdist_wheel": BuildWheel}, distclass=Package)
