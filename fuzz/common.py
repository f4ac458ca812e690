"""What the hostile runs share: texts and rule sets made by lot, calls of programs within limits, what is compared and
counted.
"""
import pathlib
import random
import re
import resource
import shutil
import subprocess
import sys
import time
from typing import NamedTuple

TOP = pathlib.Path(__file__).resolve().parent.parent
# the limits of a call
SECONDS = 60
MEMORY = 2 << 30
# of a subject so many failed cases are told, each by so many characters
TOLD_CASES = 20
TOLD_CHARACTERS = 2000

MOST = 2**63 - 1  # the greatest numerator and denominator
MOST_BYTES = 1 << 20  # of a file
SEPARATOR = "\x1e"  # between the texts of a file for fisca_bench

# the words of faults, by what they are told of
YAML_FAULTS = frozenset("Tab BadIndent DuplicateKey BadFlow BadQuote Unsupported TooDeep TooLong".split())
INPUT_FAULTS = frozenset(
    "UnknownEntity UnknownVariable UnknownPerson PersonTwice RoleFull BadValue PeriodMismatch InconsistentInput "
    "TooMany".split()
)
MODULE_FAULTS = frozenset("Syntax Indent Unsupported TooDeep TooLong".split())
AXES_FAULTS = frozenset("NoAxes BadCount BadBound CountsDiffer TooLarge UnknownVariable BadIndex AxisOverlap".split())
VALUE_FAULTS = frozenset(
    "ZeroDivisor TooWide ParameterUndefined BadScale NoMember PeriodOutOfRange PeriodMismatch Cycle TooDeep".split()
)
# of the file of each command
FILE_FAULTS = {
    "calc": YAML_FAULTS | INPUT_FAULTS | {"BadKey", "BadColumn"},
    "test": YAML_FAULTS | INPUT_FAULTS | {"BadTest", "BadOutput", "UseReform"},
    "run": YAML_FAULTS | INPUT_FAULTS | AXES_FAULTS | {"BadKey", "BadNeutral", "BadColumn", "BadCondition"},
}


class Wrong(Exception):
    """An answer after which a hostile run cannot go on."""


class LeftOut(Exception):
    """What a hostile run needs and does not find."""


class NoTrace(LeftOut):
    """That this machine lets no program be traced."""


class Answer(NamedTuple):
    """What a program writes, what it says on standard error without the last line feed, and its exit status."""

    out: str
    err: str
    status: int


class Fuzz:
    """One hostile run of a subject: what it draws by, an empty folder, its programs, and what it has counted; and after
    how many seconds it draws no more, if it has such a limit.
    """

    def __init__(self, subject, programs, count, seed, room, seconds=None):
        self.subject, self.programs, self.count, self.room = subject, programs, count, room
        self.end = None if seconds is None else time.monotonic() + seconds
        self.lot = random.Random(seed)
        self.passed = self.failed = 0

    def program(self, name):
        """The path of a program.

        Raises LeftOut where there is none.
        """
        path = self.programs[name]
        if not path.is_file():
            raise LeftOut(f"no program {path}")
        return path

    def turns(self):
        """The numbers of the cases that are drawn: as many as the count says, or fewer where the time is over."""
        for turn in range(self.count):
            if self.end is not None and time.monotonic() > self.end:
                return
            yield turn

    def call(self, *words, program="fisca", seconds=SECONDS):
        """What a program answers to words. One that does not end in time has no status."""
        command = [program if isinstance(program, pathlib.Path) else self.program(program), *map(str, words)]
        how = {"stdin": subprocess.DEVNULL, "capture_output": True, "timeout": seconds}
        try:
            ran = subprocess.run(command, **how)
        except subprocess.TimeoutExpired:
            return Answer("", f"no answer within {seconds} seconds", None)
        out, err = (text.decode(errors="backslashreplace") for text in (ran.stdout, ran.stderr))
        return Answer(out, err.removesuffix("\n"), ran.returncode)

    def lines(self, program, words, texts):
        """The line that a program answers to each of some texts, which it reads from one file.

        Raises Wrong where it does not end well, or answers more or fewer lines.
        """
        path = self.room / "texts"
        path.write_bytes(SEPARATOR.join(texts).encode())
        answer = self.call(*words, path, program=program, seconds=10 * SECONDS)
        lines = answer.out.split("\n")[:-1]
        if answer.status != 0 or len(lines) != len(texts):
            told = f"{len(lines)} lines to {len(texts)} texts: {answer.err}, status {answer.status}"
            raise Wrong(f"{program} answers {told}")
        return lines

    def peer(self, source):
        """The path of the program that is made of a file of bench/peers.

        Raises LeftOut where it cannot be made.
        """
        path = self.room / "peer"
        made = {
            ".rs": ["rustc", "-O", "--edition", "2024", "-o", path, TOP / "bench" / "peers" / source],
            ".c": ["cc", "-O1", "-o", path, TOP / "bench" / "peers" / source, "-lyaml"],
        }[pathlib.Path(source).suffix]
        if shutil.which(made[0]) is None or subprocess.run(made, preexec_fn=lift_limit).returncode != 0:
            raise LeftOut(f"bench/peers/{source} cannot be compiled by {made[0]}")
        return path

    def check(self, is_right, told):
        """Counts a case. One that is not right is told, the first ones alone."""
        if is_right:
            self.passed += 1
            return
        self.failed += 1
        if self.failed <= TOLD_CASES:
            print(f"{self.subject}: {str(told)[-TOLD_CHARACTERS:]}")

    def same(self, made, wanted, told):
        """Counts a case whose answer has to be the wanted one."""
        self.check(made == wanted, f"{told}\nanswers {made}\nwanted  {wanted}")

    def note(self, text):
        """Tells what was tried."""
        print(f"{self.subject}: {text}", flush=True)

    def is_linear(self, name, seconds, of_half):
        """Counts a case: for twice the size a program may take twice the time and a fifth, and two milliseconds."""
        print(f"{self.subject}: {name}: {seconds:.3f} s, half of it {of_half:.3f} s", file=sys.stderr)
        self.check(seconds <= 2.4 * of_half + 0.002, f"{name}: {seconds:.3f} s, and half of it {of_half:.3f} s")


def limit_memory():
    """Limits the memory of this process and of each that it starts."""
    resource.setrlimit(resource.RLIMIT_AS, (MEMORY, resource.getrlimit(resource.RLIMIT_AS)[1]))


def lift_limit():
    """Lifts the limit for this process."""
    resource.setrlimit(resource.RLIMIT_AS, (resource.getrlimit(resource.RLIMIT_AS)[1],) * 2)


def least_seconds(call):
    """The least time of five calls."""
    best = None
    for _ in range(5):
        start = time.monotonic()
        call()
        taken = time.monotonic() - start
        best = taken if best is None else min(best, taken)
    return best


def rule_folders():
    """The rule sets of the repository, by their names."""
    folders = [path for top in ("examples", "tests/rules") for path in (TOP / top).iterdir() if (path / "entities.py").is_file()]
    return sorted(folders, key=lambda path: path.name)


def put(folder, files):
    """Writes files by their paths below a folder, which has nothing else then."""
    shutil.rmtree(folder, ignore_errors=True)
    for path, text in files.items():
        (folder / path).parent.mkdir(parents=True, exist_ok=True)
        (folder / path).write_bytes(text.encode())


def number_text(number):
    """The text of a number: a decimal where it has one, else a fraction."""
    rest = number.denominator
    for prime in (2, 5):
        while rest % prime == 0:
            rest //= prime
    if rest != 1:
        return f"{number.numerator}/{number.denominator}"
    places = 0
    while (number * 10**places).denominator != 1:
        places += 1
    digits = str(abs(int(number * 10**places))).rjust(places + 1, "0")
    return ("-" if number < 0 else "") + (digits if places == 0 else f"{digits[:-places]}.{digits[-places:]}")


def is_wide(number):
    """Whether a number is beyond the limits."""
    return abs(number.numerator) > MOST or number.denominator > MOST


# the last line of what a command writes where it was done
DONE = {
    "check": r"entities \d+, variables \d+, parameters \d+", "calc": ".*", "test": r"passed \d+, failed \d+",
    "run": r"end|more \d+", "axes": r"end|more \d+",
}


def fault_of_file(command, answer, path, text):
    """What is wrong with the answer of `fisca` to a command over a file of this text and a right rule set, or nothing:
    it is done, or tells in one line why not.
    """
    lines = answer.out.splitlines()
    if answer.status == 0 or answer.status == 1 and command == "test":
        is_whole = re.fullmatch(DONE[command], lines[-1]) if lines else command == "calc"
        return None if is_whole and not answer.err else "no end"
    if answer.status == 3:
        told = re.fullmatch(r"fisca: (.*):(\d+): (\w+)", answer.err)
        is_told = told and told[1] == str(path) and is_line_of(told[2], text) and told[3] in FILE_FAULTS[command]
        return None if is_told and not lines else "no line of the file"
    if answer.status == 4 and command in ("run", "calc"):
        at = r"position \d+: " if command == "run" else ""
        told = re.fullmatch(rf"fisca: {at}(\w+) \w+ .* \S+", answer.err)
        return None if told and told[1] in VALUE_FAULTS else "no fault of a key"
    return f"status {answer.status}"


def row_of(lot, pieces, count):
    """So many pieces in a row, each by lot."""
    return "".join(lot.choice(pieces) for _ in range(count))


def changed_everywhere(lot, text, signs):
    """Each prefix of a text, and the text with one character left out, doubled, or changed to a sign, everywhere."""
    for at in range(len(text) + 1):
        yield text[:at]
    for at in range(len(text)):
        yield text[:at] + text[at + 1:]
        yield text[:at] + text[at] + text[at:]
        yield text[:at] + lot.choice(signs) + text[at + 1:]


def is_line_of(number, text):
    """Whether a text has a line of this number."""
    return 1 <= int(number) <= text.count("\n") + 1
