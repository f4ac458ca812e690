"""The rows of a run or of axes, as they come."""
from __future__ import annotations

import operator
import re
from typing import Generator, Iterator, List, NamedTuple, Optional, Sequence, Tuple

from ._errors import FiscaError
from ._files import count_of_axes, map_of
from ._program import PathLike, Said, lines_of, program_of
from ._values import Number, Value, rounded_value_of, value_of

ENDED = re.compile(r"(?:end|more (\d+))\n")
# the most decimals that the program writes
DECIMALS = 18


class Row(NamedTuple):
    """What stands at a position: the values of the axes there, and those of the columns, in the order of the file."""

    position: int
    axes: Tuple[Number, ...]
    columns: Tuple[Value, ...]


class End:
    """How the lines of a run ended: the position at which it goes on, if it does."""

    more: Optional[int] = None


def lines_to_end(lines: Generator[str, None, str], end: End) -> Generator[str, None, None]:
    """The lines, and behind them how they ended. FiscaError where the last line does not tell that."""
    found = ENDED.fullmatch((yield from lines) or "")
    if not found:
        raise FiscaError("the program ended before its last line", 0)
    end.more = int(found[1]) if found[1] else None


class Run(Iterator[Row]):
    """The rows of a run, in the order of their positions. None is held: each is read when it is asked for.

    `axes` and `columns` are the names of the values of a row: of an axis its variable, with `#INDEX` and `@PERIOD`
    where these are not those of the file; of a column the text of the file. `more` is known behind the last row: the
    position at which a run goes on that `rows`, `to` or `part` ended, else None.

    What is refused is raised when the run begins. A fault of a value is raised behind the rows before it. `close`,
    also at the end of a `with`, ends the program.
    """

    def __init__(self, lines: Generator[str, None, str], is_rounded: bool) -> None:
        """The rows of lines behind the first one, which has the names; the generator gives what was told in the end."""
        self._end = End()
        self.axes: Tuple[str, ...] = ()
        self.columns: Tuple[str, ...] = ()
        self._lines = lines_to_end(lines, self._end)
        self._value_of = rounded_value_of if is_rounded else value_of
        head = next(self._lines, None)
        self._names = tuple(head.split("\t")[1:]) if head is not None else ()
        if head is None or not f"{head}\t".startswith("position\t"):
            self.close()
            raise FiscaError(f"no line of names: {head}", 0)

    def _has_axes(self, count: int) -> Run:
        """Takes so many of the names for those of axes."""
        self.axes, self.columns = self._names[:count], self._names[count:]
        return self

    @property
    def more(self) -> Optional[int]:
        """The position at which the run goes on, behind its last row."""
        return self._end.more

    def __iter__(self) -> Run:
        return self

    def __enter__(self) -> Run:
        return self

    def __exit__(self, *_: object) -> None:
        self.close()

    def close(self) -> None:
        """Ends the program. No row comes behind that, and `more` is not told."""
        self._lines.close()

    def __next__(self) -> Row:
        position, *cells = self._cells_of(next(self._lines))
        values = tuple(map(self._value_of, cells))
        count = len(self.axes)
        # an axis is of a variable of numbers
        return Row(int(position), values[:count], values[count:])  # type: ignore[arg-type]

    def texts(self) -> Iterator[Tuple[str, ...]]:
        """The rows that are left as the program writes them: a text for the position, each axis and each column."""
        for line in self._lines:
            yield tuple(self._cells_of(line))

    def _cells_of(self, line: str) -> List[str]:
        """The cells of a row."""
        cells = line.split("\t")
        if len(cells) != 1 + len(self._names):
            raise FiscaError(f"no row of {len(self.axes)} axes and {len(self.columns)} columns: {line}", 0)
        return cells


def options_of(
    start: int = 0,
    to: Optional[int] = None,
    rows: Optional[int] = None,
    part: Optional[Tuple[int, int]] = None,
    decimals: Optional[int] = None,
    keep_going: bool = False,
) -> List[str]:
    """The options of a run, by which it is a table. ValueError where a number is below 0, `part` is none, or stands
    beside `start` or `to`, or where there are more decimals than 18."""
    numbers = {"from": start or None, "to": to, "rows": rows, "decimals": decimals}
    told = {name: operator.index(it) for name, it in numbers.items() if it is not None}
    if min(told.values(), default=0) < 0 or told.get("decimals", 0) > DECIMALS:
        raise ValueError(f"a position or a number of rows below 0, or decimals that are none of 0 to {DECIMALS}")
    options = ["--header", *(f"--{name}={it}" for name, it in told.items()), *["--keep-going"] * keep_going]
    if part is None:
        return options
    at, count = map(operator.index, part)
    if not 1 <= at <= count <= 1_000_000 or start or to is not None:
        raise ValueError("a part is (I, N), I from 1 to N and N at most 1000000, and not beside start or to")
    return [*options, f"--part={at}/{count}"]


def run_of(lines: Generator[str, None, str], said: Said, is_rounded: bool) -> Run:
    """The run of a file of `fisca run` whose lines these are."""
    # the file was read when the first line was there
    return Run(lines, is_rounded)._has_axes(count_of_axes(map_of(said)))


def axes(
    *words: str,
    keep: Optional[str] = None,
    start: int = 0,
    to: Optional[int] = None,
    rows: Optional[int] = None,
    part: Optional[Tuple[int, int]] = None,
    decimals: Optional[int] = None,
    program: Optional[PathLike] = None,
) -> Run:
    """The values of axes alone, as of `fisca axes`: rows without columns.

    Each word is an axis, as `salary=0..2000/5`; `keep` is a condition, as `salary>=500`. The others are those of
    `Rules.run`. Refused for an axis, a condition, or a start or an end past the last position.
    """
    kept = [] if keep is None else [f"--keep={keep}"]
    options = options_of(start, to, rows, part, decimals)
    found = [program_of(program), "axes", *options, *kept, "--", *words]
    return Run(lines_of(found), decimals is not None)._has_axes(len(words))
