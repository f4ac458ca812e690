"""Want of memory: each growth of memory in a call of `fisca` is refused in turn (see refusing.py).

Axes, run files, files of columns and of tests, and rule sets that are accepted and refused. The program answers as
ever, or that there was no memory, with status 6 and whole lines from the beginning; and a run from the position behind
these lines writes the rest. With --count N so many growths of each call are tried, by lot.
"""
import os
from typing import NamedTuple

import common
import refusing

COUNT = 0
NO_MEMORY = "fisca: out of memory"
HOUSEHOLD = common.TOP / "tests" / "rules" / "household"
RUN = """period: 2016-11
input: {persons: {Ann: {}}}
axes:
- - {name: rent, count: 5, min: 0, max: 800}
filter: housing_allowance > 0
columns: [housing_allowance]
"""
# more and more keys are asked for from position to position
STEPS = """period: 2008-01
input: {persons: {Ann: {step: {2000-01: 0}}}}
axes:
- - {name: salary, count: 9, min: 0, max: 8}
columns: [later]
"""
COLUMNS = """period: 2016-11
input: {persons: {Ann: {}}, households: {home: {parents: Ann, rent: {2016-11: 800, 2016-12: 800, 1979-12: 800}}}}
columns: [housing_allowance, housing_allowance@2016-12, housing_allowance@1979-12]
"""
PAY = """period: 2017-01
input: {persons: {Ann: {salary: 1500, hours: 0}, Bob: {salary: 1000}, Cid: {salary: -5}}}
columns: [contribution, contribution#1, contribution#2, amounts#1, bare]
"""
CASTLE = """period: 2017-01
input: {occupancy: castle}
columns: [is_owner]
"""
OWNER = CASTLE.replace("castle", "owner")
CHAIN = """period: 2008-04
input: {persons: {Ann: {step: {2000-01: 0}}}}
columns: [step, step@2004-04, step@2008-05]
"""
TESTS = """- {name: near, period: 2017-01, input: {salary: 1510}, output: {contribution: 70}, absolute_error_margin: 1}
- {name: far, period: 2017-01, input: {salary: 1510.1}, output: {contribution: 70}, absolute_error_margin: 1}
"""
AMOUNTS = "brackets:\n- {threshold: {2013-01-01: 0}, amount: {2013-01-01: 5}}\n"
AMOUNTS += "- {threshold: {2013-01-01: 1000}, amount: {2013-01-01: 20}}\n"
GRADED = """

class amounts(Variable):
    value_type = float
    entity = Person
    definition_period = MONTH

    def formula(person, period, parameters):
        pay = person("salary", period)
        return parameters(period).more.marginal.calc(pay) + parameters(period).more.single.calc(pay)
"""
LATER = """

class later(Variable):
    value_type = float
    entity = Person
    definition_period = MONTH

    def formula(person, period):
        return where(person("salary", period) > 3, person("step", period), 0)
"""
FORMULA = """

class wrong(Variable):
    value_type = float
    entity = Household
    definition_period = MONTH

    def formula(household, period, parameters):
        return {}
"""
WRONG = [
    'person("nope", period)', 'household.members("salary", period)', "(1 < 2) - (2 < 3)", "2 ** 3",
    "parameters(period).nope", '"cut',
]


class Call(NamedTuple):
    """A call: the command, the files of its rule set, the text of its own file, further words of axes, and whether its
    own file is named twice."""

    command: str
    rules: dict
    text: str = ""
    words: tuple = ()
    twice: bool = False


def household():
    """The files of the rule set that all calls are about."""
    paths = [path for path in sorted(HOUSEHOLD.rglob("*")) if path.suffix in (".py", ".yaml")]
    files = {str(path.relative_to(HOUSEHOLD)): path.read_text() for path in paths}
    return {path: text for path, text in files.items() if path.startswith(("entities", "variables/", "parameters/"))}


def changed(files, path, text):
    """Files with more text at the end of one of them."""
    return {**files, path: files.get(path, "") + text}


def graded(files):
    """Files with a variable of two scales of amounts, of the same brackets."""
    files = changed(files, "variables/a.py", GRADED)
    single = "metadata: {type: single_amount}\n" + AMOUNTS
    return {**files, "parameters/more/marginal.yaml": AMOUNTS, "parameters/more/single.yaml": single}


def calls():
    """All calls that are tried, by their names."""
    files = household()
    scale = "brackets:\n- {threshold: {2013-01-01: 0}, average_rate: {2013-01-01: 0.1}}\n"
    found = {
        "axes": Call("axes", {}, "", ("salary=0..2000/5", "--keep", "salary>=500", "--rows", "2")),
        "run": Call("run", files, RUN),
        "run with more keys": Call("run", changed(files, "variables/a.py", LATER), STEPS),
        "calc": Call("calc", files, COLUMNS),
        "calc of scales": Call("calc", graded(files), PAY),
        "calc of a right input": Call("calc", files, OWNER),
        "calc of a wrong input": Call("calc", files, CASTLE),
        "calc of a chain": Call("calc", files, CHAIN),
        "explain": Call("explain", files, COLUMNS),
        "explain of scales": Call("explain", graded(files), PAY),
        "test": Call("test", files, TESTS),
        "test of a file twice": Call("test", files, TESTS, twice=True),
        "size": Call("size", files, RUN),
        "list": Call("list", files),
        "check": Call("check", files),
        "check of a scale": Call("check", changed(files, "parameters/wrong.yaml", scale)),
    }
    for place, formula in enumerate(WRONG):
        name = f"check of a formula, {place + 1}"
        found[name] = Call("check", changed(files, "variables/a.py", FORMULA.format(formula)))
    return found


def tried(fuzz, program, *words, given=os.devnull, last_ones=None):
    """The answers of a program where each growth is refused, or so many of them, or of so many last ones, and at last
    where none is.
    """
    numbers = None
    if fuzz.count:
        (last, _answer), = program.answers(*words, given=given, numbers=())
        some = range(1 if last_ones is None else max(1, last - last_ones), last)
        numbers = set(fuzz.lot.sample(some, min(fuzz.count, len(some))))
    return [answer for _number, answer in program.answers(*words, given=given, numbers=numbers)]


def words_of(fuzz, call):
    """The words of a call for `fisca`, with its files put into the room."""
    if call.command == "axes":
        return ["axes", *call.words]
    folder, path = fuzz.room / "rules", fuzz.room / "file.yaml"
    common.put(folder, call.rules)
    path.write_text(call.text)
    own = [] if call.command in ("check", "list") else [path] * (2 if call.twice else 1)
    return [call.command, folder, *own]


def rest_of(fuzz, words, out):
    """What `fisca` answers from the position behind these lines."""
    lines = out.splitlines()
    last = lines[-1].split("\t")[0] if lines else ""
    more = ["--from", int(last) + 1] if last.isdigit() else []
    if "--rows" in words:
        at = words.index("--rows")
        words, more = words[:at], [*more, "--rows", int(words[at + 1]) - len(lines)]
    return fuzz.call(*words, *more)


def fault_of(fuzz, words, whole, answer):
    """What is wrong with an answer of `fisca` for which a growth was refused, or nothing."""
    if answer == whole:
        return None
    if (answer.err, answer.status) != (NO_MEMORY, 6):
        return "no want of memory"
    if not is_start(answer.out, whole.out):
        return "no whole lines from the beginning"
    rest = whole._replace(out=whole.out[len(answer.out):])
    if words[0] in ("run", "axes") and rest_of(fuzz, words, answer.out) != rest:
        return "another rest"
    return None


def is_start(lines, text):
    """Whether these are whole lines from the beginning of a text."""
    return text.startswith(lines) and (not lines or lines.endswith("\n"))


def try_program(fuzz, program, name, call):
    """Refuses the growths of a call of `fisca`."""
    words = words_of(fuzz, call)
    *answers, whole = tried(fuzz, program, *words)
    for answer in answers:
        fault = fault_of(fuzz, words, whole, answer)
        fuzz.check(fault is None, f"{name}: {fault}: {answer}")
    refused = sum(answer.status == 6 for answer in answers)
    printed = len({answer.out for answer in answers if answer.status == 6})
    fuzz.check(whole.status != 6 and refused > 0, f"{name}: no want of memory, or always: {whole}")
    fuzz.note(f"{name}: {len(answers)} growths refused, {refused} told, behind {printed} texts")


def run(fuzz):
    """Tries all calls."""
    program = refusing.Program(fuzz.program("fisca"), fuzz.room)
    for name, call in calls().items():
        try_program(fuzz, program, name, call)
