"""Situations, columns and files of `fisca calc`.

Each prefix of a good input and of a good file; these with one character left out, doubled or changed, everywhere;
columns made of pieces by lot; and the limits of persons, groups and inputs, and one past each. Each has to be read, or
refused by a word of its layer at one of its lines. And twice the inputs of a variable of days, which overlap over twice
the days, take twice the time.
"""
import re

import common

COUNT = 5000
FILE_FAULTS = common.INPUT_FAULTS | {"BadKey", "BadColumn"}
REFUSED = re.compile(r"fisca: (.*):(\d+): (\w+)")
SIGNS = "[]{}:,-'\"#&*! \n\ta0é@"
RULES = {
    "entities.py": """\
Household = build_entity(
    key="household",
    plural="households",
    roles=[
        {"key": "parent", "plural": "parents", "subroles": ["first_parent", "second_parent"]},
        {"key": "child", "plural": "children"},
    ],
)
Person = build_entity(key="person", plural="persons", is_person=True)
""",
    "variables/a.py": """\
class salary(Variable):
    value_type = float
    entity = Person
    definition_period = MONTH
    set_input = set_input_divide_by_period
class age(Variable):
    value_type = int
    entity = Person
    definition_period = MONTH
    set_input = set_input_dispatch_by_period
class shoe(Variable):
    value_type = float
    entity = Person
    definition_period = ETERNITY
class rent(Variable):
    value_type = float
    entity = Household
    definition_period = MONTH
class rate(Variable):
    value_type = int
    entity = Person
    definition_period = DAY
    set_input = set_input_dispatch_by_period
""",
}
INPUT = """\
persons:
  Ann: {age: {2017: 30, "2017-05": 31}, shoe: 42}
  Bob:
    salary: {2017: 1200, 2017-01: 100.5}
households:
  home:
    parents: [Ann]
    child: Bob
    rent:
      2017-01: 800
"""
HEAD = "period: 2017-01\ninput:\n"
COLUMNS = 'columns:\n  - salary#1\n  - "age@2017-02"\n  - rent\n'
PIECES = [
    "salary", "age", "rent", "shoe", "nope", "#", "@", "0", "1", "2", "00", " ", "+", "-", "2017", "2017-01", "2017-13",
    "month:", "year:", ":2", "ETERNITY", "9" * 30, "é", "_", ":", "\\t",
]


def below(text):
    """The file whose input has the lines of a text."""
    return HEAD + "\n".join(f"  {line}" for line in text.split("\n"))


def fault_of(fuzz, text, words):
    """What is wrong with the answer to a file, or nothing; and whether it is refused. `words` may be told of it."""
    path = fuzz.room / "calc.yaml"
    path.write_bytes(text.encode())
    out, err, status = fuzz.call("calc", fuzz.room / "rules", path)
    if status == 0 and not err:
        return None, False
    told = REFUSED.fullmatch(err)
    is_right = told and told[1] == str(path) and told[3] in words and common.is_line_of(told[2], text)
    return None if is_right and status == 3 and not out else f"status {status}: {out}{err}", True


def try_texts(fuzz, name, texts, words):
    """Reads some files, each of which may be refused by these words."""
    refused = 0
    for text in texts:
        fault, is_refused = fault_of(fuzz, text, words | common.YAML_FAULTS)
        refused += is_refused
        fuzz.check(fault is None, f"{name}: {fault}\n{text}")
    fuzz.note(f"{name}: {len(texts)} read, {refused} refused")


def limits():
    """Inputs at the limits and past them, each with whether it is read."""
    def persons(count):
        return "persons:\n" + "".join(f"  p{i}: {{}}\n" for i in range(count))

    def groups(count):
        return persons(1) + "households:\n" + "".join(f"  h{i}: {{}}\n" for i in range(count))

    def inputs(count):
        others = ", ".join(f"q{i}: {{}}" for i in range(count - 1))
        return f'persons: {{p: {{age: {{"year:2000:1200": 30}}}}, {others}}}\n'

    yield from [(persons(1000), True), (persons(1001), False)]
    yield from [(groups(999), True), (groups(1000), False), (groups(1001), False)]
    yield from [(inputs(6), True), (inputs(7), False)]


def try_limits(fuzz):
    """Reads the inputs at the limits."""
    path = fuzz.room / "calc.yaml"
    for text, is_read in limits():
        path.write_bytes(below(text).encode())
        answer = fuzz.call("calc", fuzz.room / "rules", path)
        is_right = answer.status == 0 if is_read else answer.err.endswith(": TooMany")
        fuzz.check(is_right, f"a limit: {text[:60]!r}.. answers {answer}")


def overlapping(parts):
    """A file of so many times 5,000 inputs of some 50 years each, over so many times 133 years of days."""
    lines = ["period: 2017-01-01", "input:", "  persons:", "    p:", "      rate:"]
    for place in range(5000 * parts):
        month = 1700 * 12 + place % (1000 * parts)
        size = 600 * parts - place // (1000 * parts)
        lines.append(f"        month:{month // 12}-{month % 12 + 1:02}:{size}: {place % 7}")
    return "\n".join([*lines, "columns:", '- "rate@1700-01-01"', ""])


def try_overlapping(fuzz):
    """Shares inputs of days that overlap."""
    path = fuzz.room / "calc.yaml"
    times = []
    for parts in (1, 2):
        path.write_text(overlapping(parts))
        out, err, status = fuzz.call("calc", fuzz.room / "rules", path)
        # the shortest of those that start in the first month is the last one, which is shared first
        last = (5000 * parts - 1000 * parts) % 7
        is_right = status == 0 and out.endswith(f"\t1700-01-01\t{last}\n")
        fuzz.check(is_right, f"inputs that overlap: status {status}: {out}{err}")
        times.append(common.least_seconds(lambda: fuzz.call("calc", fuzz.room / "rules", path)))
    half, whole = times
    fuzz.is_linear("inputs of days that overlap", whole, half)


def run(fuzz):
    """Reads all inputs, files and columns."""
    common.put(fuzz.room / "rules", RULES)
    inputs = [below(text) for text in common.changed_everywhere(fuzz.lot, INPUT, SIGNS)]
    try_texts(fuzz, "inputs", inputs, common.INPUT_FAULTS)
    file = HEAD + "".join(f"  {line}\n" for line in INPUT.splitlines()) + COLUMNS
    try_texts(fuzz, "files", list(common.changed_everywhere(fuzz.lot, file, SIGNS)), FILE_FAULTS)
    rows = [common.row_of(fuzz.lot, PIECES, fuzz.lot.randint(1, 5)) for _ in range(fuzz.count)]
    columns = [f'period: 2017-01\ncolumns: "{row}"\n' for row in rows]
    try_texts(fuzz, "columns", columns, frozenset({"BadColumn"}))
    try_limits(fuzz)
    try_overlapping(fuzz)
