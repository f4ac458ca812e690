"""The rules of a folder, with a method for each command."""
from __future__ import annotations

import operator
import os
import re
from typing import TYPE_CHECKING, Any, Iterable, Iterator, List, NamedTuple, Optional, Sequence, Tuple, Union

from ._comparing import Comparison
from ._errors import FiscaError
from ._explaining import Step, step_of
from ._lines import Amount, Population, Situation, amount_of, situations_of
from ._listing import Variable, variable_of
from ._program import PathLike, Said, file_of, lines_of, output_of, program_of
from ._rows import DECIMALS, Run, options_of, run_of
from ._values import NUMBER, value_of
from ._workers import lines_of_parts, parts_of

if TYPE_CHECKING:
    import pandas

COUNTS = re.compile(r"entities (\d+), variables (\d+), parameters (\d+)\n")
VERDICTS = re.compile(r"passed \d+, failed \d+")


class Counts(NamedTuple):
    """How many entities, variables and parameters a rule set has."""

    entities: int
    variables: int
    parameters: int


class Verdict(NamedTuple):
    """Whether a test passed. Each detail is a line of the program on a value that is not as expected; there is none
    of a test that passed. `path` is that of its file, where there are several or a folder."""

    name: str
    passed: bool
    details: Tuple[str, ...]
    path: Optional[str] = None


class Rules:
    """The rules of a folder: `entities.py`, `variables` and `parameters`, with those of the folders of reforms laid over.

    A file of a reform takes the place of that of the same path, and one that is empty takes it away; of several reforms
    each is laid over those before it.

    They are read anew at each call, by the program. Each method raises Refused where a rule file or the file of the
    command is refused, Failed where a file or folder cannot be read, OutOfMemory where there is no memory, and
    FileNotFoundError where there is no program (see the package).

    What a command works out, its `said`, is the path of its file, or what would stand there as Python data: maps and
    lists, texts, days, bools and numbers. An int, a Decimal or a Fraction is the number that it is, and a float the
    shortest decimal that gives it back, so that 0.1 is a tenth. ValueError is raised for a number without a decimal,
    as a third or an infinity, and TypeError for data of another kind.
    """

    def __init__(
        self,
        folder: PathLike,
        program: Optional[PathLike] = None,
        *,
        reforms: Union[PathLike, Iterable[PathLike]] = (),
    ) -> None:
        self.folder = os.fspath(folder)
        self.program = program
        several = [reforms] if isinstance(reforms, (str, os.PathLike)) else reforms
        self.reforms = tuple(os.fspath(it) for it in several)

    def __repr__(self) -> str:
        reforms = f", reforms={list(self.reforms)!r}" if self.reforms else ""
        return f"Rules({self.folder!r}{reforms})"

    def _call(self, command: str, *options: str) -> List[str]:
        """The words of a call, but for its folder and its file."""
        return [program_of(self.program), command, *options, *(f"--reform={it}" for it in self.reforms)]

    def _words(self, command: str, *options: str) -> List[str]:
        """The words of a call, but for its file."""
        return [*self._call(command, *options), "--", self.folder]

    def check(self) -> Counts:
        """Reads all rule files, and tells how many entities, variables and parameters there are."""
        text = output_of(self._words("check"))
        found = COUNTS.fullmatch(text)
        if not found:
            raise FiscaError(f"not what fisca check prints: {text}", 0)
        return Counts(*map(int, found.groups()))

    def list(self) -> List[Variable]:
        """The variables, in the order in which the modules declare them: that of the modules' paths, and of the lines in
        each."""
        return [variable_of(line) for line in output_of(self._words("list", "--format=jsonl")).split("\n")[:-1]]

    def calc(self, said: Said, decimals: Optional[int] = None) -> List[Amount]:
        """The values of the columns of a file of `fisca calc`, in the order of the columns.

        With `decimals`, from 0 to 18, numbers are Decimals with so many places, rounded with halves away from zero.
        NoValue where one of them cannot be worked out.
        """
        text = output_of(self._words("calc", "--format=jsonl", *places_of(decimals)), file_of(said))
        return [amount_of(line, decimals is not None)[1] for line in text.split("\n")[:-1]]

    def explain(self, said: Said, columns: Sequence[str] = (), depth: Optional[int] = None) -> List[Step]:
        """How the values of the columns of a file of `fisca calc` come about, or of other `columns`, as texts like
        `rent@2025-03`: each value, and below it what its formula needed, in order.

        With `depth` no further than so many values below one another. A column that cannot be worked out is no error:
        its steps say why, and no other column comes behind it. ValueError for a depth below 0.
        """
        if depth is not None and depth < 0:
            raise ValueError(f"a depth is 0 or more, and not {depth}")
        levels = [] if depth is None else [f"--depth={operator.index(depth)}"]
        words = self._words("explain", "--format=jsonl", *levels)
        text = output_of(words, file_of(said), good=(0, 4), behind=columns)
        return [step_of(line) for line in text.split("\n")[:-1]]

    def calc_lines(self, population: Population, decimals: Optional[int] = None) -> Iterator[Situation]:
        """The values of many situations, in their order, as they come: the rules are read once.

        `population` is the path of a file of JSON Lines, each line of which is a file of `fisca calc`, or an iterable
        of what would stand there as Python data, which is asked for the next one when it is needed. A situation that
        is refused or has no value has its exception as `fault`, and the others go on. None is held but those that the
        program has not written yet.

        What is no fault of a situation is raised with the first one: rules that are refused, a file that cannot be
        read. ValueError and TypeError for Python data that cannot be handed over are raised at once.
        """
        words = self._words("calc", "--lines", "--format=jsonl", *places_of(decimals))
        return situations_of(words, population, decimals is not None)

    def size(self, said: Said) -> int:
        """The number of positions of a file of `fisca run`."""
        text = output_of(self._words("size"), file_of(said))
        if not re.fullmatch("[0-9]+\n", text):
            raise FiscaError(f"not what fisca size prints: {text}", 0)
        return int(text)

    def run(
        self,
        said: Said,
        start: int = 0,
        rows: Optional[int] = None,
        *,
        to: Optional[int] = None,
        part: Optional[Tuple[int, int]] = None,
        decimals: Optional[int] = None,
        keep_going: bool = False,
        workers: int = 1,
    ) -> Run:
        """The rows of a file of `fisca run`, as they come: the positions from `start` at which all conditions hold.

        It ends before the position `to`, or behind so many `rows`; its `more` is the position to go on from: with that
        as `start` come exactly the rest. `part` is (I, N) for part I of N, which together are the run. With `decimals`,
        from 0 to 18, numbers are Decimals with so many places, rounded with halves away from zero, and else Fractions.
        With `keep_going` the word of a fault stands in place of a value, as a text.

        With `workers` the run is worked out in parts by so many processes at a time. The rows and their order are the
        same. A process that dies is tried again, twice. That pays where working out takes longer than reading rows.

        Refused at once where the file, the start or the end is; NoValue behind the rows before the position at which a
        column or a condition cannot be worked out. ValueError for a number below 0, for a part that is none or stands
        beside `start` or `to`, and for workers beside `rows` or `part`.
        """
        file, good, is_rounded = file_of(said), (0, 4) if keep_going else (0,), decimals is not None
        options = options_of(start, to, rows, part, decimals, keep_going)
        if workers < 1 or workers > 1 and not (rows is None and part is None):
            raise ValueError("workers are 1 or more, and take neither rows nor part")
        size = self.size(said) if workers > 1 else 0
        stop = size if to is None else max(start, to)
        if max(start, stop) > size or workers == 1:
            # past the end it is refused as a whole
            return run_of(lines_of(self._words("run", *options), file, good), said, is_rounded)
        words = self._call("run", *options_of(decimals=decimals, keep_going=keep_going))
        parts = parts_of(words, self.folder, size, start, stop, workers)
        return run_of(lines_of_parts(parts, file, workers, good), said, is_rounded)

    def compare(
        self,
        reforms: Union[PathLike, Iterable[PathLike]],
        said: Said,
        start: int = 0,
        *,
        to: Optional[int] = None,
        part: Optional[Tuple[int, int]] = None,
        decimals: Optional[int] = None,
        keep_going: bool = False,
        workers: int = 1,
    ) -> Comparison:
        """Where the rows of a file of `fisca run` are others when the files of a folder, or of several, are laid over
        those of the rules: the positions, as they are found, with the values before and after.

        The file is run under both at a time, each by its own processes. The other arguments and the errors are those
        of `run`: Refused where the file is refused under the rules, or else under the reform.
        """
        several = [reforms] if isinstance(reforms, (str, os.PathLike)) else reforms
        reformed = Rules(self.folder, self.program, reforms=[*self.reforms, *several])
        before = self.run(said, start, None, to=to, part=part, decimals=decimals, keep_going=keep_going, workers=workers)
        try:
            after = reformed.run(
                said, start, None, to=to, part=part, decimals=decimals, keep_going=keep_going, workers=workers
            )
        except BaseException:
            before.close()
            raise
        return Comparison(before, after)

    def frame(
        self,
        said: Said,
        start: int = 0,
        rows: Optional[int] = None,
        decimals: Optional[int] = None,
        *,
        to: Optional[int] = None,
        part: Optional[Tuple[int, int]] = None,
        keep_going: bool = False,
        workers: int = 1,
    ) -> pandas.DataFrame:
        """A pandas.DataFrame of the rows of a run: a column `position`, one for each axis and one for each column.

        Numbers are exact Fractions, on which pandas works slowly. With `decimals`, from 0 to 18, they are floats:
        that next to the number rounded to so many places, halves away from zero. `attrs["more"]` is the position to
        go on from, or None. ImportError where there is no pandas; else the arguments and errors of `run`.
        """
        try:
            import pandas
        except ImportError as error:
            raise ImportError("frame needs pandas, which is not installed; run gives the same rows") from error

        how = {"to": to, "part": part, "decimals": decimals, "keep_going": keep_going, "workers": workers}
        with self.run(said, start, rows, **how) as found:  # type: ignore[arg-type]
            names = ["position", *found.axes, *found.columns]
            columns = cells_of(found, len(names), decimals is not None)
        frame = pandas.DataFrame(dict(enumerate(columns)))
        # two columns may have one name, which a dict could not hold
        frame.columns = names
        frame.attrs["more"] = found.more
        return frame

    def test(self, said: Said, *more: PathLike, name: Optional[str] = None) -> List[Verdict]:
        """The verdicts on the tests of a file of `fisca test`, or on a list of tests, in their order, and behind them
        on those of `more` files. Of a folder they are those of the files below it whose names end in `.yaml` or `.yml`.

        With `name` only the tests are run whose names have that text. A test that fails is no error. A value that
        cannot be worked out fails its test, and its detail says why. ValueError where names with line breaks look as
        other tests do.
        """
        named = [] if name is None else [f"--name={name}"]
        words, behind = self._words("test", *named), [file_of(it).word for it in more]
        text = output_of(words, file_of(said), good=(0, 1), behind=behind)
        is_folder = isinstance(said, (str, os.PathLike)) and os.path.isdir(said)
        return verdicts_of_files(text) if more or is_folder else verdicts_of(text)


def places_of(decimals: Optional[int]) -> List[str]:
    """The option of so many decimals. ValueError where they are not 0 to 18."""
    if decimals is None:
        return []
    if not 0 <= decimals <= DECIMALS:
        raise ValueError(f"decimals are 0 to {DECIMALS}, and not {decimals}")
    return [f"--decimals={operator.index(decimals)}"]


def cells_of(run: Run, count: int, is_rounded: bool) -> List[List[Any]]:
    """The cells of a run, column by column: numbers as Fractions, or as floats."""
    columns: List[List[Any]] = [[] for _ in range(count)]
    if not is_rounded:
        for row in run:
            for cells, value in zip(columns, (row.position, *row.axes, *row.columns)):
                cells.append(value)
        return columns
    for texts in run.texts():
        for cells, text in zip(columns, texts):
            cells.append(text)
    return [list(map(int, columns[0])), *([float_of(it) for it in cells] for cells in columns[1:])]


def float_of(text: str) -> Any:
    """The float next to a number that the program wrote, and other values as they are."""
    return float(text) if NUMBER.fullmatch(text) else value_of(text)


def verdicts_of_files(text: str) -> List[Verdict]:
    """The verdicts of the reports on several files, each below its path and with its counts as its last line, and behind
    them the counts of all. ValueError where line breaks in names hide where a report ends."""
    *lines, last = text.split("\n")[:-1] or [""]
    found: List[Verdict] = []
    while lines:
        path, *lines = lines
        for at in [it for it, line in enumerate(lines) if VERDICTS.fullmatch(line)]:
            try:
                verdicts = verdicts_of_report(lines[: at + 1])
            except ValueError:
                # a name with a line break, behind which the report goes on
                continue
            found += [it._replace(path=path) for it in verdicts]
            lines = lines[at + 1 :]
            break
        else:
            raise ValueError(f"no counts of the tests of {path}: a name has a line break")
    passed = sum(it.passed for it in found)
    if last != f"passed {passed}, failed {len(found) - passed}":
        raise ValueError(f"'{last}', and not {len(found)} tests: a name has a line break")
    return found


def verdicts_of(text: str) -> List[Verdict]:
    """The verdicts of a report. ValueError where line breaks in names hide how many there are."""
    return verdicts_of_report(text.split("\n")[:-1] or [""])


def verdicts_of_report(report: List[str]) -> List[Verdict]:
    """The verdicts of the lines of a report. ValueError where line breaks in names hide how many there are."""
    *lines, last = report
    found: List[Tuple[List[str], List[str]]] = []
    for line in lines:
        if re.match("ok |failed ", line) or not found:
            found.append(([line], []))
        elif line.startswith("  "):
            found[-1][1].append(line[2:])
        else:
            # a name with a line break goes on here
            texts = found[-1][1] or found[-1][0]
            texts[-1] += f"\n{line}"
    verdicts = [verdict_of(head[0], details) for head, details in found]
    passed = sum(it.passed for it in verdicts)
    if last != f"passed {passed}, failed {len(verdicts) - passed}":
        raise ValueError(f"'{last}', and not {len(verdicts)} tests: a name has a line break")
    return verdicts


def verdict_of(head: str, details: List[str]) -> Verdict:
    """The verdict of the first line of a test, with its name, and the lines below it."""
    word, _, name = head.partition(" ")
    return Verdict(name, word == "ok", tuple(details))
