"""The shared library: where it is, or linked in a clone where there is a C compiler."""
from __future__ import annotations

import atexit
import os
import subprocess
import tempfile
from functools import lru_cache

from vengine.program import CLONE, IS_IN_CLONE, find_library


@lru_cache(maxsize=1)
def found_library() -> str:
    """The path of the shared library; "" where there is none and none can be made. One that is made goes with this process."""
    found = find_library()
    if found is not None or not IS_IN_CLONE:
        return found or ""
    folder = tempfile.TemporaryDirectory()
    atexit.register(folder.cleanup)
    path = os.path.join(folder.name, "libvengine.so.1")
    try:
        done = subprocess.run([os.path.join(CLONE, "release", "shared"), path], stdout=subprocess.DEVNULL, stderr=subprocess.DEVNULL)
    except OSError:
        return ""
    return path if done.returncode == 0 else ""
