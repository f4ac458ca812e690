"""Many situations, each on a line of its own, worked out by one process."""
from __future__ import annotations

import contextlib
import os
import queue
import subprocess
import tempfile
import threading
from typing import (
    IO,
    Any,
    Dict,
    Generator,
    Iterable,
    Iterator,
    List,
    Mapping,
    NamedTuple,
    Optional,
    Sequence,
    Tuple,
    Union,
)

from ._errors import Failed, FiscaError, error_of, error_of_line, shown
from ._program import PathLike
from ._values import Value, json_of, object_of, value_of_json

# a file of lines, or what would stand on each of them
Population = Union[PathLike, Iterable[Mapping[Any, Any]]]


class Amount(NamedTuple):
    """The value of a column: its variable, the name of the member, the period and the value."""

    variable: str
    member: str
    period: str
    value: Value


class Situation(NamedTuple):
    """What one of many situations has: its number, from 1 on, and the values of its columns in their order. Where it
    is refused or a column has no value `fault` is what `Rules.calc` would raise, and the amounts are those before."""

    line: int
    amounts: List[Amount]
    fault: Optional[FiscaError]


def amount_of(line: str, is_rounded: bool) -> Tuple[int, Amount]:
    """The number of the line, if there is one, and the value of a line of JSON of `fisca calc`. FiscaError for another
    line."""
    try:
        found = object_of(line, is_rounded)
        amount = Amount(found["variable"], found["member"], found["period"], value_of_json(found["value"]))
        return int(found.get("line", 0)), amount
    except (ValueError, KeyError, TypeError) as error:
        raise FiscaError(f"not what fisca calc prints: {line}", 0) from error


class Told:
    """What the program tells on standard error, which goes to a file, and is read as it comes."""

    def __init__(self, file: IO[bytes], path: Optional[str]) -> None:
        self.file, self.path = file, path
        self.at = 0
        self.faults: Dict[int, FiscaError] = {}
        self.others = b""

    def read(self) -> None:
        """Reads the whole lines that came since: those of a situation, and others."""
        text = os.pread(self.file.fileno(), os.fstat(self.file.fileno()).st_size - self.at, self.at)
        *lines, rest = text.split(b"\n")
        self.at += len(text) - len(rest)
        for line in lines:
            found = error_of_line(line.decode(errors="replace"), self.path)
            if found:
                self.faults[found[0]] = found[1]
            else:
                self.others += line + b"\n"


class Gathered:
    """The values and faults of situations, put together to situations in their order."""

    def __init__(self, told: Told, is_rounded: bool) -> None:
        self.told, self.is_rounded = told, is_rounded
        self.line = 1
        self.amounts: List[Amount] = []

    def take(self, line: str) -> Iterator[Situation]:
        """Takes a line of the program. Gives the situations that are over by that."""
        number, amount = amount_of(line, self.is_rounded)
        if number > self.line:
            # the program tells a fault before it goes on
            self.told.read()
            yield from self.before(number)
        self.amounts.append(amount)

    def before(self, number: int) -> Iterator[Situation]:
        """The situations before one, which are over."""
        while self.line < number:
            found = Situation(self.line, self.amounts, self.told.faults.pop(self.line, None))
            self.line, self.amounts = self.line + 1, []
            yield found

    def last(self) -> int:
        """The number of the last situation of which something is known that was not given."""
        return max([*self.told.faults, self.line if self.amounts else 0])


def situations_of(words: Sequence[str], population: Population, is_rounded: bool) -> Generator[Situation, None, None]:
    """The situations of a file of lines or of Python data, which are worked out by the program with these words."""
    if not isinstance(population, (str, os.PathLike)):
        yield from worked_out(words, iter(population), None, subprocess.PIPE, is_rounded)
        return
    path = os.fspath(population)
    try:
        file = open(path, "rb")
    except OSError as error:
        raise Failed(f"fisca: {shown(path)}: cannot read", 5) from error
    with file:
        yield from worked_out(words, iter(()), path, file, is_rounded)


def worked_out(
    words: Sequence[str],
    situations: Iterator[Mapping[Any, Any]],
    path: Optional[str],
    source: Union[int, IO[bytes]],
    is_rounded: bool,
) -> Generator[Situation, None, None]:
    """Starts the program, hands the situations over as it takes them, and gives what it writes of each. It is ended
    where the iterator is closed or forgotten."""
    with tempfile.TemporaryFile() as file:
        told = Told(file, path)
        gathered = Gathered(told, is_rounded)
        ran = subprocess.Popen([*words, "-"], stdin=source, stdout=subprocess.PIPE, stderr=file)
        lines = lines_read(ran)
        count = 0
        try:
            for said in situations:
                if not handed_over(ran.stdin, said):
                    break
                count += 1
                for line in ready(lines):
                    yield from gathered.take(line)
            closed(ran.stdin)
            for line in iter(lines.get, None):
                yield from gathered.take(line)
            ran.wait()
        finally:
            ran.kill()
            closed(ran.stdin)
            ran.wait()
        told.read()
        if told.others or ran.returncode not in (0, 3, 4, 5):
            raise error_of(told.others, ran.returncode, None)
    yield from gathered.before(1 + max(count if path is None else count_of_lines(path), gathered.last()))


def lines_read(ran: subprocess.Popen[bytes]) -> queue.SimpleQueue[Optional[str]]:
    """The lines that a process prints, read by a thread so that it never waits, and None behind the last one."""
    lines: queue.SimpleQueue[Optional[str]] = queue.SimpleQueue()

    def read() -> None:
        assert ran.stdout is not None
        with ran.stdout:
            for line in ran.stdout:
                if line.endswith(b"\n"):
                    lines.put(line[:-1].decode())
        lines.put(None)

    threading.Thread(target=read, daemon=True).start()
    return lines


def ready(lines: queue.SimpleQueue[Optional[str]]) -> Iterator[str]:
    """The lines that are there."""
    while not lines.empty():
        line = lines.get()
        if line is None:
            # the end is still to be found
            lines.put(None)
            return
        yield line


def handed_over(to: Optional[IO[bytes]], said: Mapping[Any, Any]) -> bool:
    """Writes a situation as a line of JSON. Answers whether the program is still there to read it."""
    line = json_of(said).encode()
    assert to is not None
    try:
        to.write(line + b"\n")
    except BrokenPipeError:
        return False
    return True


def closed(to: Optional[IO[bytes]]) -> None:
    """Ends what is handed over."""
    if to is not None:
        with contextlib.suppress(BrokenPipeError):
            to.close()


def count_of_lines(path: str) -> int:
    """How many lines a file has, and 0 of what can be read only once."""
    if not os.path.isfile(path):
        return 0
    with open(path, "rb") as file:
        return sum(1 for _ in file)
