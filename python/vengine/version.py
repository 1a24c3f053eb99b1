"""The version of the package, which is the program's."""
from __future__ import annotations

import os
import pkgutil
import re

from vengine.program import CLONE

# The file that the build of a package writes, and the place in the repository where the version is written.
BUILT = "VERSION"
WRITTEN = os.path.join(CLONE, "crates", "words", "src", "version.rt")


def read_version() -> str:
    """The version, as "1.0.0"."""
    try:
        # The package may have been imported from an archive.
        built = pkgutil.get_data(__package__, BUILT)
    except OSError:
        built = None
    if built is not None:
        return built.decode("ascii").strip()
    with open(WRITTEN, encoding="ascii") as file:
        found = re.search(r'VERSION: &str = "([0-9.]+)"', file.read())
    if found is None:
        raise ImportError(f"no version in {WRITTEN}")
    return found.group(1)


__version__ = read_version()
