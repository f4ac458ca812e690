"""Want of memory in calls of the libraries: each growth of memory in a case of fisca_cases is refused in turn.

The cases are those over which `growths` calls `fisca`, each by the calls that a command makes of the libraries: over a
sink in memory, and step by step. A call that finds no memory says so, or that its sink took nothing. Then the same call
is made once more, with memory: a run from the position where it stopped writes the rest, any other command all of its
text, and an evaluator that has answered some columns answers all of them. With --count N so many growths of each case
are tried, by lot.
"""
import re
from typing import NamedTuple

import common
import growths
import refusing

COUNT = 0
# what the program says where there is no memory for the case itself
NO_CASE = common.Answer("", "Error: Kind(OutOfMemory)", 1)
# what a case answers where there is none for a call that is not made once more
NO_CALL = re.compile(r"no memory|fault \d+ Memory(, module \d+)?(, line \d+)?")
# a call that stopped: for want of memory, or since its sink took nothing
STOPPED = re.compile(
    r"status (?:6, fisca: out of memory|5, fisca: write failed)(?: at (\d+))?, failures ([01])"
)
STOPPED_COLUMNS = re.compile(r"out of memory at (\d+)")
# the line before a case, behind those that make its rule set
BEGIN = "# the case\n"


class Case(NamedTuple):
    """A case of fisca_cases: its rule set's files, its line, and the text that is its last word."""

    rules: dict
    line: str
    text: str = ""


def cases():
    """All cases that are tried, by their names."""
    calls = growths.calls()
    household, scales = calls["check"].rules, calls["calc of scales"].rules
    found = {
        "axes": Case({}, 'again axes "salary>=500" - salary=0..2000/5'),
        "run": Case(household, "again run -", growths.RUN),
        "run with more keys": Case(calls["run with more keys"].rules, "again run -", growths.STEPS),
        "run, step by step": Case(household, "run counts 0 -", growths.RUN),
        "parameters": Case(scales, "params count"),
        "test": Case(household, "again test", growths.TESTS),
        "a situation": Case(household, "situations members 2016-11", "{rent: 800, salary: {2016: 1200}}\n"),
        "a wrong situation": Case(household, "situations members 2017-01", "{occupancy: castle}\n"),
        "check": Case(household, "again check"),
        "a rule set": Case(household, "rule_sets build"),
    }
    columns = {
        "columns": (household, growths.COLUMNS), "columns of scales": (scales, growths.PAY),
        "columns of a chain": (household, growths.CHAIN), "columns of a right input": (household, growths.OWNER),
        "columns of a wrong input": (household, growths.CASTLE),
    }
    for name, (rules, text) in columns.items():
        found[name] = Case(rules, "again calc", text)
        found[f"{name}, step by step"] = Case(rules, "calc read" if "wrong" in name else "calc again", text)
    for name, call in calls.items():
        if name.startswith("check of"):
            found[name] = Case(call.rules, "again check")
            found[f"{name}, step by step"] = Case(call.rules, "rule_sets build")
    return found


def lines_of(line, text):
    """The lines of a case with a text."""
    return line + "\n" + "".join(f"  {it}\n" for it in text.splitlines())


def answer_of(out, shown):
    """The lines of the answer to a case, which has these lines itself, among all that the program writes."""
    behind = out.partition(BEGIN)[2].removeprefix(shown.removesuffix("\n")).partition("=>")[2]
    return [line[3:] for line in ("  " + behind).splitlines()]


def fault_of_columns(made, wanted):
    """What is wrong with the answer of two evaluators of which one found no memory, or nothing."""
    own = wanted[:len(wanted) // 2]
    at, = (place for place, line in enumerate(made) if STOPPED_COLUMNS.fullmatch(line))
    done = 0 if at < len(own) else len(own)
    before, column = made[done:at], int(STOPPED_COLUMNS.fullmatch(made[at])[1])
    is_right = made[:done] + made[at + 1:] == wanted and before == own[:column] and len(before) == column
    return None if is_right else "other values"


def fault_of_command(command, made, wanted):
    """What is wrong with the answer of a command that stopped, and was called once more, or nothing."""
    at, = (place for place, line in enumerate(made) if STOPPED.fullmatch(line))
    position, failures = STOPPED.fullmatch(made[at]).groups()
    before, behind = made[:at], made[at + 1:]
    if (failures == "1") != made[at].startswith("status 5"):
        return "a failed write that its sink does not count"
    if command not in ("axes", "run"):
        return None if behind == wanted and before == wanted[:at] and position is None else "another text"
    if position is None:
        return None if behind == wanted and not before else "lines before the run"
    first = [int(line.split("\t")[0]) for line in before + behind if "\t" in line]
    is_parted = all(it < int(position) for it in first[:at]) and all(it >= int(position) for it in first[at:])
    return None if is_parted and before + behind == wanted else "another rest"


def kind_of(case, answer, whole, shown):
    """How a case is answered for which a growth was refused, and what is wrong with that, or nothing."""
    if answer == whole:
        return "as ever", None
    if answer._replace(out="") == NO_CASE:
        return "no case", None if whole.out.startswith(answer.out) else "another beginning"
    if (answer.err, answer.status) != ("", 0):
        return "no end", "no end"
    made, wanted = answer_of(answer.out, shown), answer_of(whole.out, shown)
    if len(made) == 1 and NO_CALL.fullmatch(made[0]):
        return "told", None
    first, second, *_ = case.line.split()
    if case.line == "calc again" and sum(map(bool, map(STOPPED_COLUMNS.fullmatch, made))) == 1:
        return "asked again", fault_of_columns(made, wanted)
    if first == "again" and sum(map(bool, map(STOPPED.fullmatch, made))) == 1:
        is_full = any(line.startswith("status 5") for line in made)
        return "sink refused" if is_full else "called again", fault_of_command(second, made, wanted)
    return "another answer", "another answer"


def drawn(fuzz, numbers):
    """The numbers of the growths that are refused: all of them, or so many by lot, half of them among the last ones."""
    if not fuzz.count:
        return set(numbers)
    half, ends = fuzz.count // 2, numbers[-fuzz.count:]
    return {*fuzz.lot.sample(numbers, min(half, len(numbers))), *fuzz.lot.sample(ends, min(half, len(ends)))}


def try_case(fuzz, program, name, case):
    """Refuses the growths of a case, but for those by which its rule set is put together."""
    files = "".join(lines_of(f"file {path}", text) for path, text in case.rules.items())
    given, shown = fuzz.room / "given", lines_of(case.line, case.text)
    given.write_text(f"rules\n{files}{BEGIN}")
    (before, _answer), = program.answers(given=given, numbers=())
    given.write_text(f"rules\n{files}{BEGIN}{shown}")
    (last, whole), = program.answers(given=given, numbers=())
    numbers = drawn(fuzz, range(before, last))
    kinds = {}
    for number, answer in program.answers(given=given, numbers=numbers):
        kind, fault = kind_of(case, answer, whole, shown)
        told = answer.out.partition(BEGIN)[2] + answer.err
        fuzz.check(fault is None, f"{name}: {fault} where growth {number} was refused: {told}")
        kinds[kind] = kinds.get(kind, 0) + (number != last)
    wanted = {"again": "called again", "calc again": "asked again"}
    wanted = wanted.get(case.line, wanted.get(case.line.split()[0], "told"))
    fuzz.check(kinds.get(wanted), f"{name}: no growth was {wanted}")
    fuzz.note(f"{name}: " + ", ".join(f"{kind} {count}" for kind, count in sorted(kinds.items()) if count))


def run(fuzz):
    """Tries all cases."""
    program = refusing.Program(fuzz.program("fisca_cases"), fuzz.room)
    for name, case in cases().items():
        try_case(fuzz, program, name, case)
