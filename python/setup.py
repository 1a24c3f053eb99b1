"""Builds the wheel in a clone: the modules, and from the folder `release` the program, the shared library and the version. Needs gcc."""
from __future__ import annotations

import os
import shutil
import subprocess
from typing import Tuple

from setuptools import Distribution, setup
from setuptools.command.build_py import build_py

try:
    from setuptools.command.bdist_wheel import bdist_wheel
except ImportError:
    from wheel.bdist_wheel import bdist_wheel

RELEASE = os.path.join(os.path.dirname(os.path.abspath(__file__)), "..", "release")
# The program and the library run where glibc is 2.34 or later.
PLATFORM = "manylinux_2_34_x86_64"


def read_version() -> str:
    """The version that the clone has written down."""
    script = os.path.join(RELEASE, "version")
    if not os.path.exists(script):
        raise SystemExit(f"vengine is built in a clone of its repository: there is no {script}")
    return subprocess.run([script], check=True, stdout=subprocess.PIPE, text=True).stdout.strip()


class BuildWithRelease(build_py):
    """Copies the modules, and what the release has beside them."""

    def run(self) -> None:
        package = os.path.join(self.build_lib, "vengine")
        if self.editable_mode:
            super().run()
            return
        # What an earlier build has left here would be installed too.
        shutil.rmtree(package, ignore_errors=True)
        super().run()
        inside = os.path.join(package, "bin")
        os.makedirs(inside)
        shutil.copy(os.path.join(RELEASE, "vengine"), inside)
        subprocess.run([os.path.join(RELEASE, "shared"), os.path.join(inside, "libvengine.so.1")], check=True)
        with open(os.path.join(package, "VERSION"), "w", encoding="ascii") as file:
            file.write(read_version() + "\n")


class PlatformDistribution(Distribution):
    """One that is of a platform, though no module of it is compiled."""

    def has_ext_modules(self) -> bool:
        return True


class PlatformWheel(bdist_wheel):
    """A wheel for every Python of the platform."""

    def get_tag(self) -> Tuple[str, str, str]:
        return "py3", "none", PLATFORM


setup(version=read_version(), distclass=PlatformDistribution, cmdclass={"build_py": BuildWithRelease, "bdist_wheel": PlatformWheel})
