"""Reads a file that the program took, in the subset of YAML that docs/LANGUAGE.md describes.

The program has refused whatever is none, so nothing is checked here, and of other texts anything may come out. It is
needed for the number of axes of a run, which the program does not print.
"""
from __future__ import annotations

import re
from typing import Any, Dict, List, NamedTuple, Optional, Tuple

ENTRY = re.compile(r"""("(?:[^"\\]|\\.)*"|'(?:[^']|'')*'|[^"'\[{](?:(?![ \t]#).)*?)[ \t]*:(?=[ \t]|$)""")
QUOTED = re.compile(r"""("(?:[^"\\]|\\.)*"|'(?:[^']|'')*')""")
ITEM = re.compile(r"-(?:[ \t]+|$)")
BLOCK_TEXT = re.compile(r"[|>][-+0-9]*(?:[ \t]+#.*|[ \t]*)$")
COMMENT = re.compile(r"(?:^|[ \t])#.*$")
FLOW_PLAIN = re.compile(r"(?:(?![,\]}]|:(?:[ \t,\]}]|$)|[ \t]#).)*")
ESCAPE = re.compile(r"\\(x[0-9A-Fa-f]{2}|u[0-9A-Fa-f]{4}|.)")
ESCAPES = {"n": "\n", "r": "\r", "t": "\t", "0": "\0"}


class Line(NamedTuple):
    """A line: the column at which it begins, and its text from there on."""

    column: int
    text: str


def read(text: str) -> Any:
    """The tree of a text: maps as dicts, lists, and scalars as texts; None for a value that is not there."""
    rows = [row[:-1] if row.endswith("\r") else row for row in text.split("\n")]
    lines = [Line(len(row) - len(row.lstrip(" ")), row.strip(" \t")) for row in rows]
    lines = [line for line in lines if line.text and not line.text.startswith("#")]
    if lines and re.fullmatch(r"---(?:[ \t]+#.*)?", lines[0].text) and not lines[0].column:
        lines = lines[1:]
    return Reader(lines).block() if lines else None


class Reader:
    """Lines, and the place of the next one."""

    def __init__(self, lines: List[Line]) -> None:
        self.lines = lines
        self.at = 0

    def next(self) -> Optional[Line]:
        """The next line, if there is one."""
        return self.lines[self.at] if self.at < len(self.lines) else None

    def block(self) -> Any:
        """What begins at the next line: a list, a map or a scalar."""
        line = self.lines[self.at]
        if ITEM.match(line.text):
            return self.items(line.column)
        if ENTRY.match(line.text):
            return self.entries(line.column)
        self.at += 1
        return scalar_of(line.text)

    def entries(self, column: int) -> Dict[str, Any]:
        """The map whose entries begin at this column."""
        found: Dict[str, Any] = {}
        line = self.next()
        while line and line.column == column:
            entry = ENTRY.match(line.text)
            if not entry or ITEM.match(line.text):
                break
            self.at += 1
            found[text_of(entry[1])] = self.value(line.text[entry.end():].strip(" \t"), column, is_entry=True)
            line = self.next()
        return found

    def items(self, column: int) -> List[Any]:
        """The list whose dashes stand at this column."""
        found: List[Any] = []
        line = self.next()
        while line and line.column == column and ITEM.match(line.text):
            dash = ITEM.match(line.text)
            rest = line.text[dash.end():] if dash else ""
            if ITEM.match(rest) or ENTRY.match(rest):
                # the lines that go on below stand at the column of what follows the dash
                self.lines[self.at] = Line(column + len(line.text) - len(rest), rest)
                found.append(self.block())
            else:
                self.at += 1
                found.append(self.value(rest, column, is_entry=False))
            line = self.next()
        return found

    def value(self, rest: str, column: int, is_entry: bool) -> Any:
        """The value behind a colon or a dash, or in the lines below it."""
        line = self.next()
        if BLOCK_TEXT.match(rest):
            while line and line.column > column:
                self.at += 1
                line = self.next()
            return ""
        if COMMENT.sub("", rest):
            return scalar_of(rest)
        is_below = line and (line.column > column or is_entry and line.column == column and ITEM.match(line.text))
        return self.block() if is_below else None


def scalar_of(text: str) -> Any:
    """The scalar, or the list or map in brackets, at the beginning of a text that may end in a comment."""
    if text[0] in "[{":
        return flow_of(text, 0)[0]
    quoted = QUOTED.match(text)
    return text_of(quoted[0]) if quoted else COMMENT.sub("", text).strip(" \t")


def flow_of(text: str, at: int) -> Tuple[Any, int]:
    """What stands in brackets, or as a scalar within them, and the place behind it."""
    at = blanks(text, at)
    if text[at] == "[":
        return flow_items(text, at + 1)
    if text[at] == "{":
        return flow_entries(text, at + 1)
    quoted = QUOTED.match(text, at)
    if quoted:
        return text_of(quoted[0]), blanks(text, quoted.end())
    end = FLOW_PLAIN.match(text, at)
    place = end.end() if end else at
    return text[at:place].strip(" \t") or None, place


def flow_items(text: str, at: int) -> Tuple[List[Any], int]:
    """The list behind an opening bracket, and the place behind it."""
    found: List[Any] = []
    at = blanks(text, at)
    while text[at] != "]":
        item, at = flow_of(text, at)
        found.append(item)
        at = blanks(text, at)
        at = blanks(text, at + 1) if text[at] == "," else at
    return found, blanks(text, at + 1)


def flow_entries(text: str, at: int) -> Tuple[Dict[str, Any], int]:
    """The map behind an opening brace, and the place behind it."""
    found: Dict[str, Any] = {}
    at = blanks(text, at)
    while text[at] != "}":
        key, at = flow_of(text, at)
        value = None
        if text[at] == ":":
            value, at = flow_of(text, at + 1)
        found[key] = value
        at = blanks(text, at)
        at = blanks(text, at + 1) if text[at] == "," else at
    return found, blanks(text, at + 1)


def blanks(text: str, at: int) -> int:
    """The place behind blanks."""
    while at < len(text) and text[at] in " \t":
        at += 1
    return at


def text_of(word: str) -> str:
    """The text of a word that stands plain or in quotes."""
    if word[:1] == "'":
        return word[1:-1].replace("''", "'")
    return ESCAPE.sub(unescaped, word[1:-1]) if word[:1] == '"' else word


def unescaped(escape: "re.Match[str]") -> str:
    """What an escape in double quotes stands for."""
    said = escape[1]
    return chr(int(said[1:], 16)) if len(said) > 1 else ESCAPES.get(said, said)
