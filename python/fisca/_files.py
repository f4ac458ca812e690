"""What the program does not tell of a file of `fisca run`: how many of its cells are axes."""
from __future__ import annotations

import os
from typing import Any, Mapping

from ._program import Said
from ._yaml import read


def map_of(said: Said) -> Mapping[Any, Any]:
    """The map of a file that the program took."""
    if isinstance(said, (str, os.PathLike)):
        with open(said, encoding="utf-8", newline="") as file:
            said = read(file.read())
    return said if isinstance(said, Mapping) else {}


def count_of_axes(said: Mapping[Any, Any]) -> int:
    """How many axes a file of `fisca run` has, in all its groups."""
    return sum(len(group) for group in said["axes"])
