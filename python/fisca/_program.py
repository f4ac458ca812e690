"""Finds the program, and runs it: to its end, or line by line."""
from __future__ import annotations

import io
import os
import shutil
import subprocess
import tempfile
from contextlib import contextmanager
from pathlib import Path
from typing import IO, Any, Collection, Generator, Iterator, Mapping, NamedTuple, Optional, Sequence, Union

from ._errors import error_of
from ._values import json_of

PathLike = Union[str, "os.PathLike[str]"]
# the file of a command: its path, or what would stand there
Said = Union[PathLike, Mapping[Any, Any], Sequence[Any]]

CHECKOUT = Path(__file__).resolve().parent.parent.parent


def program_of(named: Optional[PathLike]) -> str:
    """The path of the program. FileNotFoundError where there is none."""
    own = CHECKOUT / "bin" / "fisca"
    # a package that is installed stands in no checkout, whose list of crates tells
    is_there = own.is_file() and (CHECKOUT / "crates.txt").is_file()
    found = named or os.environ.get("FISCA") or shutil.which("fisca") or (own if is_there else None)
    if not found:
        raise FileNotFoundError("no program fisca: FISCA names none, none is on PATH, and here is no checkout")
    return os.fspath(found)


class File(NamedTuple):
    """The file of a command, as its last word, and what is handed over as standard input in its place."""

    word: str
    data: Optional[bytes] = None

    @property
    def handed(self) -> Optional[str]:
        """How the program names what was handed over, where it was."""
        return None if self.data is None else self.word


def file_of(said: Said) -> File:
    """The file of a command: a path, or Python data, which the program reads as a line of JSON."""
    if isinstance(said, (str, os.PathLike)):
        path = os.fspath(said)
        # a file may be named so, and is no standard input
        return File("./-" if path == "-" else path)
    return File("-", f"{json_of(said)}\n".encode())


@contextmanager
def standard_input(data: Optional[bytes]) -> Iterator[Union[int, IO[bytes]]]:
    """What a process gets as standard input: a file without a name with this data, or nothing."""
    if data is None:
        yield subprocess.DEVNULL
        return
    # a pipe would have to be filled while the output is read
    with tempfile.TemporaryFile() as file:
        file.write(data)
        file.seek(0)
        yield file


def output_of(
    words: Sequence[str], file: Optional[File] = None, good: Collection[int] = (0,), behind: Sequence[str] = ()
) -> str:
    """What the program prints on these words, of which the first one is the program, a file and words behind it.
    FiscaError where its status is none of the good ones."""
    with standard_input(file and file.data) as source:
        call = [*words, *([file.word] if file else []), *behind]
        ran = subprocess.run(call, stdin=source, capture_output=True, check=False)
    if ran.returncode not in good:
        raise error_of(ran.stderr, ran.returncode, file and file.handed)
    return ran.stdout.decode()


def whole_lines(output: IO[bytes]) -> Iterator[str]:
    """The lines of an output, without one that is cut short."""
    for line in io.TextIOWrapper(output, "utf-8", newline="\n"):
        if line.endswith("\n"):
            yield line[:-1]


def lines_of(
    words: Sequence[str], file: Optional[File] = None, good: Collection[int] = (0,)
) -> Generator[str, None, str]:
    """The lines that the program prints on these words and a file, as they come, and in the end what it told on
    standard error. FiscaError behind the last line where its status is none of the good ones. The program is ended
    where the iterator is closed or forgotten."""
    call = [*words, *([file.word] if file else [])]
    # what is told goes to a file: a long line would fill a pipe that nobody reads
    with tempfile.TemporaryFile() as told, standard_input(file and file.data) as source:
        with subprocess.Popen(call, stdin=source, stdout=subprocess.PIPE, stderr=told) as ran:
            assert ran.stdout is not None
            try:
                yield from whole_lines(ran.stdout)
            except BaseException:
                ran.kill()
                raise
        told.seek(0)
        text = told.read()
    if ran.returncode not in good:
        raise error_of(text, ran.returncode, file and file.handed)
    return text.decode(errors="replace")
