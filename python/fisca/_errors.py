"""What the program tells on standard error, as exceptions."""
from __future__ import annotations

import re
from typing import Dict, Optional, Tuple, Type, Union

REFUSED = re.compile(r"fisca: (?:(.*):(\d+): )?(\w+)", re.DOTALL)
NO_VALUE = re.compile(r"fisca: (?:position (\d+): )?(\w+) (\S+) (.*) (\S+)", re.DOTALL)
# of a line of standard input
OF_LINE = re.compile(r"fisca: -:(\d+): (.*)", re.DOTALL)
# the characters of a path that the program shows by their numbers
CONTROL = re.compile("[\0-\x1f\x7f-\x9f]")
FAILED = re.compile(r"fisca: (?:cannot list (.*)|(.*): cannot read)", re.DOTALL)


class FiscaError(Exception):
    """The program ended with neither a result nor one of the faults below, as on a wrong command line.

    `text` is what it told on standard error, for a fault below its one line, and `status` its exit status, or below 0
    the number of the signal that ended it.
    """

    def __init__(self, text: str, status: int, handed: Optional[str] = None) -> None:
        # all arguments are kept, so that a pool of processes can pass the exception on
        super().__init__(text, status, handed)
        self.text = text
        self.status = status

    def __str__(self) -> str:
        return self.text


class Refused(FiscaError):
    """A rule file, the file of the command, an axis, a condition or a position is refused (status 3).

    `word` is the program's word, which docs/LANGUAGE.md explains. `path` is the file: a rule file by its path below
    the folder of the rules, or with reforms in the folder that it is in; the file of the command as it was named. A
    control character is told as `\\x0a`. `line` counts from 1. Both are None where no file is told, and of what was
    handed over as Python data, which is all on one line. Of a situation among many that is Python data `line` is its
    number.
    """

    def __init__(self, text: str, status: int, handed: Optional[str] = None) -> None:
        super().__init__(text, status, handed)
        found = REFUSED.fullmatch(text)
        is_told = found is not None and found[1] is not None and found[1] != shown(handed)
        self.path: Optional[str] = found[1] if found and is_told else None
        self.line: Optional[int] = int(found[2]) if found and is_told else None
        self.word: str = found[3] if found else text


class NoValue(FiscaError):
    """A column or a condition has no value (status 4).

    `word` is the program's word. `key` is what it is told of, which need not be the column's own: its `variable`,
    `member` and `period`, with blanks between them. `position` is where a run met it. Of a situation among many `line`
    is its number, and `path` their file. What is not told is None.
    """

    def __init__(self, text: str, status: int, handed: Optional[str] = None) -> None:
        super().__init__(text, status, handed)
        found = NO_VALUE.fullmatch(text)
        self.position: Optional[int] = int(found[1]) if found and found[1] else None
        self.path: Optional[str] = None
        self.line: Optional[int] = None
        self.word: str = found[2] if found else text
        self.variable: str = found[3] if found else ""
        self.member: str = found[4] if found else ""
        self.period: str = found[5] if found else ""

    @property
    def key(self) -> str:
        """The variable, the member and the period."""
        return f"{self.variable} {self.member} {self.period}"


class Failed(FiscaError):
    """A file or folder could not be read, or the output not be written (status 5). `path` is the file or folder, and
    of a situation among many `line` its number."""

    def __init__(self, text: str, status: int, handed: Optional[str] = None) -> None:
        super().__init__(text, status, handed)
        found = FAILED.fullmatch(text)
        self.path: Optional[str] = (found[1] or found[2]) if found else None
        self.line: Optional[int] = None


class OutOfMemory(FiscaError):
    """The program was given no memory (status 6)."""


def shown(path: Optional[str]) -> Optional[str]:
    """A path as the program shows it."""
    return path and CONTROL.sub(lambda found: f"\\x{ord(found[0]):02x}", path)


KINDS: Dict[int, Type[FiscaError]] = {3: Refused, 4: NoValue, 5: Failed, 6: OutOfMemory}


def error_of(told: bytes, status: int, handed: Optional[str]) -> FiscaError:
    """The exception of what was told and the exit status; `handed` is the file that Python data was written to."""
    text = told.decode(errors="replace")
    text = text[:-1] if text.endswith("\n") else text
    return KINDS.get(status, FiscaError)(text or f"the program ended with status {status}", status, handed)


def error_of_line(told: str, path: Optional[str]) -> Optional[Tuple[int, FiscaError]]:
    """The number of a line of standard input, and the exception of what was told of it; None where that is of no line.

    `path` is the file that was given as standard input, and None of Python data.
    """
    found = OF_LINE.fullmatch(told)
    if not found:
        return None
    number, text = int(found[1]), f"fisca: {found[2]}"
    error: Union[Refused, NoValue, Failed]
    if found[2] == "cannot read":
        error = Failed(text, 5)
    else:
        error = NoValue(text, 4) if NO_VALUE.fullmatch(text) else Refused(text, 3)
    error.text = f"fisca: {shown(path) or '-'}:{number}: {found[2]}"
    error.path, error.line = shown(path), number
    return number, error
