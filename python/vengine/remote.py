"""What runs on a worker of a cluster: the pieces, by the package and the program that were sent to it."""
import hashlib
import importlib.util
import os
import pkgutil
import stat
import sys
import tempfile
import threading
from functools import lru_cache
from typing import Any, Dict, List, Tuple

from vengine.work import Piece, WorkLost, done

# The name of the program inside the archive that is sent.
PROGRAM_NAME = "program.bin"

_lock = threading.Lock()
_programs: Dict[str, str] = {}


def sources(package: str = __package__) -> List[Tuple[str, bytes]]:
    """The modules of the package as they are in force here, each with its name and its text."""
    module = sys.modules[package]
    found = [(package + ".__init__", _text(package))]
    for info in pkgutil.walk_packages(module.__path__, package + "."):
        found.append((info.name + (".__init__" if info.ispkg else ""), _text(info.name)))
    return sorted(found)


def _text(name: str) -> bytes:
    spec = importlib.util.find_spec(name)
    text = None if spec is None or spec.loader is None else spec.loader.get_source(name)  # type: ignore[attr-defined]
    return (text or "").encode()


def package_digest() -> str:
    """A name of the modules of the package as they are in force here."""
    return _digest_in(tuple(sys.modules[__package__].__path__))


@lru_cache(maxsize=None)
def _digest_in(_folders: Tuple[str, ...]) -> str:
    """The same, found once for the folders from which the package comes: an archive that is sent later is another one."""
    told = hashlib.sha256()
    for name, text in sources():
        told.update(f"{name} {len(text)}\n".encode() + text)
    return told.hexdigest()


def digest_of(data: bytes) -> str:
    """The SHA-256 of these bytes."""
    return hashlib.sha256(data).hexdigest()


def program_here(digest: str, folder: str) -> str:
    """The path of the program that was sent, written into a folder and made executable once. WorkLost where its digest is another one."""
    with _lock:
        if digest not in _programs:
            data = pkgutil.get_data(__package__, PROGRAM_NAME)
            if data is None or digest_of(data) != digest:
                raise WorkLost("the program that came to a worker is not the one that was sent")
            handle, path = tempfile.mkstemp(prefix="vengine-", dir=folder)
            with os.fdopen(handle, "wb") as file:
                file.write(data)
            os.chmod(path, stat.S_IRWXU)
            _programs[digest] = path
        return _programs[digest]


def at_work(package: str, program: str, folder: str, task: str, given: Dict[str, Any]) -> Any:
    """The answer of a piece, by the program of this digest, which is kept in the folder of the worker. WorkLost where this worker has other sources of the package in force."""
    if package_digest() != package:
        raise WorkLost("a worker has another version of the package loaded: start it anew")
    return done(Piece(task, given), program_here(program, folder))
