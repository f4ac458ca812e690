"""Values as the program writes them, and Python data as a line of JSON that it reads."""
from __future__ import annotations

import datetime
import functools
import json
import re
from decimal import Decimal
from fractions import Fraction
from numbers import Integral, Rational, Real
from typing import Any, Callable, Dict, Mapping, Sequence, Union

Number = Union[Fraction, Decimal]
Value = Union[Fraction, Decimal, bool, str]

NUMBER = re.compile(r"-?[0-9]+(?:\.[0-9]+|/[0-9]+)?", re.ASCII)
# escapes that JSON has, and the program has not
ESCAPES = {"\\b": "\\u0008", "\\f": "\\u000c"}


# the same texts come again and again in the rows of a grid, and these values never change
@functools.lru_cache(maxsize=1 << 12)
def value_of(text: str) -> Value:
    """The value that a text of the program is: a number as a Fraction, `true` and `false` as a bool, else a name.

    A member of an Enum with the name `true` or `false` is a bool too.
    """
    return number_of(text) if NUMBER.fullmatch(text) else bool_or_name_of(text)


@functools.lru_cache(maxsize=1 << 12)
def rounded_value_of(text: str) -> Value:
    """The same of a text that the program wrote with decimals: its numbers are Decimals."""
    return Decimal(text) if NUMBER.fullmatch(text) else bool_or_name_of(text)


def bool_or_name_of(text: str) -> Union[bool, str]:
    """The condition or the name that a text of the program is."""
    return text == "true" if text in ("true", "false") else text


def number_of(text: str) -> Fraction:
    """The number that a text of the program is: a whole number, a decimal or a fraction."""
    # Fraction(text), which takes more forms, takes twice the time
    above, _, below = text.partition("/")
    if below:
        return Fraction(int(above), int(below))
    whole, _, places = text.partition(".")
    return Fraction(int(whole + places), 10 ** len(places)) if places else Fraction(int(whole))


def object_of(line: str, is_rounded: bool) -> Mapping[str, Any]:
    """The object of a line of JSON that the program wrote, its numbers as Fractions, or as Decimals."""
    number: Dict[bool, Callable[[str], Number]] = {True: Decimal, False: number_of}
    found: Mapping[str, Any] = json.loads(line, parse_int=number[is_rounded], parse_float=number[is_rounded])
    return found


def value_of_json(value: Any) -> Value:
    """The value that stands in such an object: a number that has no decimal is a text there, and is a Fraction."""
    is_fraction = isinstance(value, str) and NUMBER.fullmatch(value)
    found: Value = number_of(value) if is_fraction else value
    return found


def json_of(data: Any) -> str:
    """Python data on one line of JSON, numbers as decimals.

    A float is the shortest decimal that gives it back, so that 0.1 is a tenth. ValueError for a number that has no
    decimal, as a third, and for a text with half a surrogate pair; TypeError for data that is none of a situation.
    """
    if data is None or isinstance(data, bool):
        return json.dumps(data)
    if isinstance(data, (str, datetime.date)):
        return text_of(data)
    if isinstance(data, Mapping):
        return "{" + ", ".join(f"{key_of(key)}: {json_of(it)}" for key, it in data.items()) + "}"
    if isinstance(data, Sequence) and not isinstance(data, (bytes, bytearray)):
        return "[" + ", ".join(map(json_of, data)) + "]"
    if isinstance(data, (Decimal, Real)):
        return decimal_of(data)
    # the values of numpy and pandas say so what they are in Python
    item = getattr(data, "item", None)
    if callable(item):
        return json_of(item())
    raise TypeError(f"{data!r} cannot be handed to fisca: it is a {type(data).__name__}")


def text_of(text: Union[str, datetime.date]) -> str:
    """A text or a day in double quotes."""
    quoted = json.dumps(text if isinstance(text, str) else text.isoformat(), ensure_ascii=False)
    quoted.encode()
    return re.sub(r"\\.", lambda found: ESCAPES.get(found[0], found[0]), quoted)


def key_of(key: Any) -> str:
    """A key of a map: a text, a day, or a whole number, as of a year."""
    if isinstance(key, (str, datetime.date)):
        return text_of(key)
    if isinstance(key, Integral) and not isinstance(key, bool):
        return text_of(str(int(key)))
    raise TypeError(f"{key!r} is no key of a situation: it is a {type(key).__name__}")


def decimal_of(number: Union[Decimal, Real]) -> str:
    """A number as a decimal, without an exponent."""
    if isinstance(number, Integral):
        return str(int(number))
    if isinstance(number, Rational):
        return decimal_of_fraction(Fraction(number))
    exact = number if isinstance(number, Decimal) else Decimal(float.__repr__(float(number)))
    if not exact.is_finite():
        raise ValueError(f"{number} is no number of a situation")
    return format(exact, "f")


def decimal_of_fraction(number: Fraction) -> str:
    """A fraction as a decimal. ValueError where it has none."""
    below, places = number.denominator, 0
    while 10**places % below and places < below.bit_length():
        places += 1
    if 10**places % below:
        raise ValueError(f"{number} has no decimal, and a situation has no fractions")
    digits = str(abs(number.numerator) * (10**places // below)).rjust(places + 1, "0")
    return f"{'-' if number < 0 else ''}{digits[:-places]}.{digits[-places:]}" if places else str(number)
