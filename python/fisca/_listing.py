"""The variables of a rule set."""
from __future__ import annotations

import datetime
import json
from typing import NamedTuple, Tuple

from ._errors import FiscaError


class Variable(NamedTuple):
    """A variable, as its module declares it.

    `entity` is the key of its entity, `value_type` is `float`, `int`, `bool`, `date` or `str`, or the name of its Enum,
    and `definition_period` is `day`, `month`, `year` or `eternity`. `formulas` are the days from which on its formulas
    are in force, from top to bottom; a variable of inputs alone has none. `unit` and `label` are empty where nothing is
    told. Its class begins on a `line`, from 1 on, of the module `path` below the folder of the rules. In texts a control
    character stands as `\\x09`.
    """

    name: str
    entity: str
    value_type: str
    definition_period: str
    formulas: Tuple[datetime.date, ...]
    unit: str
    label: str
    path: str
    line: int


def variable_of(line: str) -> Variable:
    """The variable of a line of JSON of `fisca list`. FiscaError for another line."""
    try:
        found = json.loads(line)
        texts = [found[it] for it in ("variable", "entity", "value_type", "definition_period")]
        path, _, number = found["declared"].rpartition(":")
        return Variable(*texts, days_of(found["formulas"]), found["unit"], found["label"], path, int(number))
    except (ValueError, KeyError, TypeError, AttributeError) as error:
        raise FiscaError(f"not what fisca list prints: {line}", 0) from error


def days_of(text: str) -> Tuple[datetime.date, ...]:
    """The first days of formulas; a variable of inputs alone has none."""
    return () if text == "input" else tuple(map(datetime.date.fromisoformat, text.split(" ")))
