"""Workers of a cluster of dask.distributed (docs/CLUSTER.md): what they need they get through it, and where one dies its pieces go to another."""
import importlib
import io
import logging
import os
import tempfile
import zipfile
from typing import Any, Dict, Iterable, Iterator, List, Optional, Set, Tuple

from vengine.engine import Engine
from vengine.faults import BadInput
from vengine.remote import PROGRAM_NAME, at_work, digest_of, package_digest, sources
from vengine.version import BUILT, __version__
from vengine.work import AHEAD, Piece, WorkLost


def dask() -> Any:
    """The package dask.distributed, or None where it is missing."""
    try:
        return importlib.import_module("distributed")
    except ImportError:
        return None


distributed = dask()
# How long, in seconds, a scheduler may take to answer at first, and one that is begun here, on a busy machine too; and how often it is looked whether it is
# still there.
CONNECT, BEGIN, LOOK = 20.0, 120.0, 0.5
# How often a piece that fails on a worker is begun again. One whose worker dies is begun again as often as the scheduler allows.
TRIES = 3


def archive_of(program: bytes) -> bytes:
    """The package and the program as a zip archive, from which a worker imports the one and writes down the other."""
    room = io.BytesIO()
    with zipfile.ZipFile(room, "w", zipfile.ZIP_DEFLATED) as archive:
        for name, text in sources():
            archive.writestr(name.replace(".", "/") + ".py", text)
        archive.writestr(f"{__package__}/{BUILT}", __version__)
        archive.writestr(f"{__package__}/{PROGRAM_NAME}", program)
    return room.getvalue()


def program_bytes(program: str) -> bytes:
    """The program itself, where the path may be that of a launcher that becomes it."""
    with Engine(program) as engine, open(f"/proc/{engine.pid}/exe", "rb") as file:
        return file.read()


def silence() -> None:
    """Has dask keep to itself what is told here as an error of one line."""
    for name in list(logging.root.manager.loggerDict):
        if name.partition(".")[0] in ("distributed", "tornado", "asyncio"):
            logging.getLogger(name).setLevel(logging.CRITICAL + 1)


def own_cluster(jobs: int) -> Any:
    """A scheduler with so many processes here, which may take their time to begin."""
    limit = f"{BEGIN:.0f}s"
    importlib.import_module("dask").config.set({"distributed.comm.timeouts.connect": limit, "distributed.comm.timeouts.tcp": limit})
    return distributed.LocalCluster(n_workers=jobs, threads_per_worker=1, dashboard_address=None)


class Cluster:
    """Workers of the scheduler at this address, or of as many processes here where there is none."""

    def __init__(self, program: str, address: Optional[str], jobs: int) -> None:
        if distributed is None:
            raise BadInput("a cluster needs dask.distributed: install Debian's package python3-distributed")
        data = program_bytes(program)
        silence()
        self._digests = (package_digest(), digest_of(data))
        self._own = None if address else own_cluster(jobs)
        self._client = self._connected(address or self._own, CONNECT if address else BEGIN)
        self._asked: Dict[int, Set[str]] = {}
        self._send(archive_of(data))

    @staticmethod
    def _connected(where: Any, limit: float) -> Any:
        try:
            return distributed.Client(where, timeout=limit)
        except (OSError, ValueError) as error:
            raise BadInput(f"there is no scheduler at {where}: {error}") from None

    def _send(self, archive: bytes) -> None:
        """Gives the archive to each worker that is there, and to each that comes."""
        with tempfile.TemporaryDirectory() as folder:
            path = os.path.join(folder, f"vengine-{digest_of(archive)[:16]}.zip")
            with open(path, "wb") as file:
                file.write(archive)
            plugin = distributed.diagnostics.plugin.UploadFile(path)
            self._client.register_worker_plugin(plugin, name=os.path.basename(path))

    def answers(self, pieces: Iterable[Tuple[int, Piece]]) -> Iterator[Tuple[int, Any]]:
        """The number and the answer of each piece, as they come. A piece that is asked again goes to a worker that has not answered it.
        WorkLost where the scheduler has ended."""
        try:
            yield from self._answers(pieces)
        except (ConnectionError, distributed.comm.CommClosedError):
            raise WorkLost("the scheduler has ended") from None

    def _answers(self, pieces: Iterable[Tuple[int, Piece]]) -> Iterator[Tuple[int, Any]]:
        under_way: Dict[Any, int] = {}
        source, is_open = iter(pieces), True
        while is_open or under_way:
            while is_open and len(under_way) < AHEAD * self._width():
                number, piece = next(source, (-1, None))
                is_open = piece is not None
                if piece is not None:
                    under_way[self._submitted(number, piece)] = number
            for future in self._ended(list(under_way)):
                number = under_way.pop(future)
                where, answer = self._result(number, future)
                self._asked.setdefault(number, set()).add(where)
                yield number, answer

    @staticmethod
    def _result(number: int, future: Any) -> Tuple[str, Any]:
        """The worker that has done a piece, and its answer."""
        try:
            where, answer = future.result()
        except distributed.KilledWorker:
            raise WorkLost(f"each worker that had piece {number + 1} has died") from None
        return where, answer

    def _width(self) -> int:
        """How many pieces the workers that are there do at once, at least 1."""
        return max(1, int(sum(self._client.nthreads().values())))

    def _submitted(self, number: int, piece: Piece) -> Any:
        others = [worker for worker in self._client.nthreads() if worker not in self._asked.get(number, ())]
        return self._client.submit(told_by, *self._digests, piece.task, piece.given, pure=False, retries=TRIES,
                                   workers=others if number in self._asked and others else None)

    def _ended(self, futures: List[Any]) -> List[Any]:
        """Those of them that have an answer, once there is one."""
        while futures:
            if self._client.status != "running":
                raise WorkLost("the scheduler has ended")
            try:
                ended = distributed.wait(futures, timeout=LOOK, return_when="FIRST_COMPLETED").done
            except (TimeoutError, distributed.TimeoutError):
                continue
            if any(future.cancelled() for future in ended):
                raise WorkLost("the scheduler has ended")
            return list(ended)
        return []

    def close(self) -> None:
        """Leaves the scheduler; the workers that were begun here end."""
        self._client.close(timeout=2)
        if self._own is not None:
            self._own.close()


def told_by(package: str, program: str, task: str, given: Dict[str, Any]) -> Tuple[str, Any]:
    """Runs on a worker: its address, and the answer of the piece."""
    worker = distributed.get_worker()
    return worker.address, at_work(package, program, worker.local_directory, task, given)
