"""Two runs over the same positions, and where their rows differ."""
from __future__ import annotations

from typing import Iterator, List, NamedTuple, Optional, Tuple, Union

from ._errors import FiscaError, NoValue
from ._rows import Row, Run
from ._values import Number, Value

# what a run has next: a row, the fault that ends it, or nothing
Next = Union[Row, NoValue, None]
# that this is not read yet: what is told behind a row is told behind its difference
UNREAD = Row(-1, (), ())


class Difference(NamedTuple):
    """A position at which two runs differ: the values of the axes there, and those of the columns under the rules and
    under the reform; None where the conditions do not hold, so that there is no row."""

    position: int
    axes: Tuple[Number, ...]
    before: Optional[Tuple[Value, ...]]
    after: Optional[Tuple[Value, ...]]


class Comparison(Iterator[Difference]):
    """The positions at which two runs differ, in their order: where one has a row and the other none, or where the
    values of a column are others. None is held: each is found when it is asked for.

    `axes` and `columns` are the names of the values, as of a Run, and `more` is known behind the last difference: the
    position at which the runs go on that `to` or `part` ended, else None.

    A fault of a value ends the comparison behind the differences before its position, whichever run meets it; at one
    position it is that of the rules. `close`, also at the end of a `with`, ends both programs.
    """

    def __init__(self, before: Run, after: Run) -> None:
        self._runs = before, after
        self._next: Tuple[Next, Next] = UNREAD, UNREAD
        self.axes, self.columns = before.axes, before.columns
        self.more: Optional[int] = None

    def __iter__(self) -> Comparison:
        return self

    def __enter__(self) -> Comparison:
        return self

    def __exit__(self, *_: object) -> None:
        self.close()

    def close(self) -> None:
        """Ends both programs. No difference comes behind that, and `more` is not told."""
        for run in self._runs:
            run.close()
        self._next = None, None

    def __next__(self) -> Difference:
        try:
            return self._next_difference()
        except FiscaError:
            self.close()
            raise

    def _next_difference(self) -> Difference:
        before, after = self._runs
        while True:
            first, second = self._next
            first = next_of(before) if first is UNREAD else first
            second = next_of(after) if second is UNREAD else second
            places = [it.position for it in (first, second) if it is not None and it.position is not None]
            if not places:
                self._next, self.more = (None, None), before.more
                raise StopIteration
            place = min(places)
            one, other = row_at(first, place), row_at(second, place)
            self._next = UNREAD if one else first, UNREAD if other else second
            if are_other(one, other):
                return difference_of(one, other)


def next_of(run: Run) -> Next:
    """What a run has next. FiscaError for a fault that is of no position."""
    try:
        return next(run, None)
    except NoValue as fault:
        if fault.position is None:
            raise
        return fault


def row_at(found: Next, place: int) -> Optional[Row]:
    """The row at a position, if that is what was found. NoValue where the fault that was found is there."""
    if found is None or found.position != place:
        return None
    if isinstance(found, NoValue):
        raise found
    return found


def difference_of(before: Optional[Row], after: Optional[Row]) -> Difference:
    """The difference of two rows of one position, of which one is there."""
    there = before or after
    assert there is not None
    return Difference(there.position, there.axes, before and before.columns, after and after.columns)


def are_other(before: Optional[Row], after: Optional[Row]) -> bool:
    """Whether two rows differ. A condition is no number, though to Python True is 1."""
    if before is None or after is None:
        return before is not after
    pairs: List[Tuple[Value, Value]] = list(zip(before.columns, after.columns))
    return any(type(one) is not type(other) or one != other for one, other in pairs)
