"""How values come about."""
from __future__ import annotations

from typing import NamedTuple, Optional

from ._errors import FiscaError
from ._values import Value, object_of, value_of_json

TEXTS = ("since", "file", "unit", "label", "reference")


class Step(NamedTuple):
    """A value on the way to that of a column, and what it comes from.

    `depth` says how many values stand above it: 0 of a column, 1 of what its formula needs. `kind` is `key` for a variable
    of a member at a period, `parameter`, or `scale` for a sum of a scale for a `base`; of these two `name` is the path
    and `period` the day. `value` is None where there is none, and `fault` says why.

    `source` is `given` for an input, `shared` for one of the longer period `since`, `beside` for a default beside other
    inputs, `default`, `neutralised`, `formula` for the one that is in force from the day `since`, `above` where it was
    explained further up, `parameter` for a value in force from the day `since`, `scale`, or `unfit` for a period at
    which the variable has no values. It stands on a `line` of `file`, which is empty for the file that is explained.
    """

    depth: int
    kind: str
    name: str
    member: str
    period: str
    base: Optional[Value]
    value: Optional[Value]
    fault: str
    source: str
    since: str
    file: str
    unit: str
    label: str
    reference: str
    line: Optional[int]


def step_of(line: str) -> Step:
    """The step of a line of JSON of `fisca explain`. FiscaError for another line."""
    try:
        found = object_of(line, False)
        names = [found[it] for it in ("kind", "name", "member", "period")]
        base, value = (None if found[it] == "" else value_of_json(found[it]) for it in ("base", "value"))
        number = None if found["line"] == "" else int(found["line"])
        texts = [found[it] for it in TEXTS]
        return Step(int(found["depth"]), *names, base, value, found["fault"], found["source"], *texts, number)
    except (ValueError, KeyError, TypeError, AttributeError) as error:
        raise FiscaError(f"not what fisca explain prints: {line}", 0) from error
