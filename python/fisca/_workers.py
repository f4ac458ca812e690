"""A run in parts, each worked out by a process of its own, with their lines in order."""
from __future__ import annotations

import collections
import re
import subprocess
import tempfile
import threading
from concurrent.futures import Future, ThreadPoolExecutor
from typing import IO, Collection, Deque, Generator, List, NamedTuple, Optional, Sequence, Set

from ._errors import FiscaError, error_of
from ._program import File, standard_input, whole_lines

# so often a part is tried whose process dies, and the statuses of a process that died, beside signals: the output
# failed, or there was no memory
TRIES = 3
DIED = (5, 6)
# the most positions of a part: its lines are on disk until they are asked for
POSITIONS = 1 << 18
MOST_PARTS = 1_000_000


class Part(NamedTuple):
    """The words of a part, and what the program tells behind its last line."""

    words: List[str]
    last: str


class Done(NamedTuple):
    """The lines of a part that is whole, and else those before its fault, which is to be raised behind them."""

    lines: IO[bytes]
    fault: Optional[FiscaError]


def parts_of(words: Sequence[str], folder: str, size: int, start: int, stop: int, workers: int) -> List[Part]:
    """The parts of the positions from `start` to `stop` of `size`: some for each worker, so that no worker waits long
    for another one, and none with many positions."""
    count = stop - start
    parts = max(min(4 * workers, count), -(-count // POSITIONS), 1)
    is_whole = start == 0 and stop == size and parts <= MOST_PARTS
    found = []
    for at in range(parts):
        begin, end = start + count * at // parts, start + count * (at + 1) // parts
        options = [f"--part={at + 1}/{parts}"] if is_whole else [f"--from={begin}", f"--to={end}"]
        found.append(Part([*words, *options, "--", folder], "end\n" if end == size else f"more {end}\n"))
    return found


class Workers:
    """Processes that work out parts, so many at a time."""

    def __init__(self, file: File, good: Collection[int]) -> None:
        self.file, self.good = file, good
        self.lock = threading.Lock()
        self.processes: Set[subprocess.Popen[bytes]] = set()
        self.is_over = False

    def close(self) -> None:
        """Ends all processes, and starts none any more."""
        with self.lock:
            self.is_over = True
            for it in self.processes:
                it.kill()

    def done(self, part: Part) -> Done:
        """Works out a part, once more where its process dies or leaves it cut short, and so twice at most."""
        for _ in range(TRIES):
            lines, told, status = self.tried(part)
            if status in self.good and told.decode(errors="replace") == part.last:
                return Done(lines, None)
            if status not in self.good and status > 0 and status not in DIED:
                return Done(lines, error_of(told, status, self.file.handed))
            lines.close()
        if status in self.good:
            raise FiscaError(f"a part of the run did not end with '{part.last.strip()}'", status)
        raise error_of(told, status, self.file.handed)

    def tried(self, part: Part) -> tuple[IO[bytes], bytes, int]:
        """Runs the process of a part. Gives its lines, what it told and its status."""
        lines = tempfile.TemporaryFile()
        with tempfile.TemporaryFile() as told, standard_input(self.file.data) as source:
            with self.lock:
                if self.is_over:
                    raise FiscaError("the run was closed", 0)
                call = [*part.words, self.file.word]
                ran = subprocess.Popen(call, stdin=source, stdout=lines, stderr=told)
                self.processes.add(ran)
            ran.wait()
            with self.lock:
                self.processes.discard(ran)
            told.seek(0)
            text = told.read()
        lines.seek(0)
        return lines, text, ran.returncode


def lines_of_parts(
    parts: Sequence[Part], file: File, workers: int, good: Collection[int] = (0,)
) -> Generator[str, None, str]:
    """The lines of the parts of a run in order, the line of names once, and in the end what the last one told. A fault
    is raised behind the lines before it. At most three times as many parts as workers are worked out and not yet read.
    All processes are ended where the iterator is closed or forgotten."""
    crew = Workers(file, good)
    pool = ThreadPoolExecutor(workers)
    waiting: Deque[Future[Done]] = collections.deque()
    left = iter(parts)
    try:
        for at in range(len(parts)):
            while len(waiting) < 3 * workers and (part := next(left, None)):
                waiting.append(pool.submit(crew.done, part))
            found = waiting.popleft().result()
            with found.lines:
                if at:
                    found.lines.readline()
                yield from whole_lines(found.lines)
            if found.fault:
                raise found.fault
    finally:
        crew.close()
        pool.shutdown()
    return parts[-1].last
