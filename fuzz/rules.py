"""Rule sets, checked by `fisca check`.

Each rule set of the repository with one file that lacks a line, has it twice, or has one word in the place of another;
and rule sets with as many attributes, members of an Enum, roles, subroles, locals, conditions of a `select`, entities,
formulas and names that differ in case alone as 1 MiB holds. Each has to be accepted, or refused by one line that names
a file of the rule set (or `entities.py`), one of its lines and a kind; and the large ones take linear time. So do sums
over years of a variable of days that has as many formulas as 1 MiB holds.
"""
import collections
import datetime
import math
import re

import common

COUNT = 2000
WORDS = common.YAML_FAULTS | common.MODULE_FAULTS | frozenset(
    "UnknownName UnknownVariable UnknownParameter BadType BadLevel BadAttribute DuplicateName BadParameter TooWide "
    "NotANumber".split()
)
ACCEPTED = re.compile(r"entities \d+, variables \d+, parameters \d+\n")
REFUSED = re.compile(r"fisca: (.*):(\d+): (\w+)")
PERSON = 'Person = build_entity(key="person", plural="persons", is_person=True)\n'
ATTRIBUTES = "    value_type = float\n    entity = Person\n    definition_period = MONTH\n"
CLASS = "class v(Variable):\n" + ATTRIBUTES
FORMULA = CLASS + "    def formula(person, period):\n"


def fault_of(fuzz, files):
    """What is wrong with the answer for the rule set that was put, or nothing, and the kind of its refusal."""
    out, err, status = fuzz.call("check", fuzz.room / "rules")
    if status == 0:
        return (None if ACCEPTED.fullmatch(out) and not err else f"no counts: {out}{err}"), "accepted"
    told = REFUSED.fullmatch(err)
    if status != 3 or out or not told or told[3] not in WORDS:
        return f"status {status}: {out}{err}", "?"
    text = files.get(told[1], "" if told[1] == "entities.py" else None)
    if text is None or not common.is_line_of(told[2], text):
        return f"no line of a file: {err}", "?"
    return None, told[3]


def changed(text, count, lot):
    """A text with one line less, with one line twice, everywhere, and so often one word in the place of another."""
    lines = text.splitlines(keepends=True)
    for at in range(len(lines)):
        yield "".join(lines[:at] + lines[at + 1:])
        yield "".join(lines[:at] + lines[at:at + 1] + lines[at:])
    words = re.findall(r"\w+|[^\w\s]", text)
    places = [found.span() for found in re.finditer(r"\w+|[^\w\s]", text)]
    for _ in range(count if places else 0):
        start, end = lot.choice(places)
        yield text[:start] + lot.choice(words) + text[end:]


def try_changed(fuzz, folder, kinds):
    """Checks a rule set with each of its files changed."""
    paths = [path for path in sorted(folder.rglob("*")) if path.suffix in (".py", ".yaml", ".yml")]
    files = {str(path.relative_to(folder)): path.read_text() for path in paths}
    for path, text in files.items():
        common.put(fuzz.room / "rules", files)
        for one in changed(text, fuzz.count // len(files), fuzz.lot):
            (fuzz.room / "rules" / path).write_bytes(one.encode())
            fault, kind = fault_of(fuzz, {**files, path: one})
            kinds[kind] += 1
            fuzz.check(fault is None, f"{folder.name}/{path}: {fault}\n{one}")


def many(piece, size, head, tail=""):
    """As many pieces as a text of so many bytes holds."""
    made, taken = [head], len(head) + len(tail)
    for place in range(size):
        one = piece(place)
        taken += len(one)
        if taken > size:
            break
        made.append(one)
    return "".join([*made, tail])


def chosen(size):
    """A formula that selects by as many conditions as a text of so many bytes holds."""
    head = FORMULA + "        return "
    count = (size - len(head) - len("select([], [])\n")) // len("True,1,")
    return f"{head}select([{'True,' * count}], [{'1,' * count}])\n"


def cased(place):
    """A name of letters, small or capital by the bits of a number."""
    return "".join(letter.upper() if place >> bit & 1 else letter for bit, letter in enumerate("abcdefghijklmnopq"))


def dated(place):
    """A formula from a month on."""
    return f"    def formula_{1 + place // 12:04d}_{1 + place % 12:02d}(p, t):\n        return 1\n"


def by_members(size, local, use):
    """Parameters among which two members of an Enum choose, as many as half of so many bytes hold, a local, and locals
    that use it in the other half."""
    names = [f"m{i}" for i in range(math.isqrt(size // 2 // 40))]
    below = "".join(f"  {name}: {{a: {{values: {{2000-01-01: 1}}}}}}\n" for name in names)
    head = "class E(Enum):\n" + "".join(f"    {name} = 'a'\n" for name in names)
    head += CLASS.replace("v(", "e(").replace("float", "Enum")
    head += "    possible_values = E\n    default_value = E.m0\n" + FORMULA.replace("period)", "period, parameters)")
    head += f"        e = person('e', period)\n        b = parameters(period).n{local}\n"
    return {
        "entities.py": PERSON,
        "parameters/n.yaml": "".join(f"{name}:\n{below}" for name in names),
        "variables/a.py": many(lambda i: f"        a=b{use}\n", size // 2, head, "        return a.a\n"),
    }


# what makes the text of entities.py of so many bytes
LARGE_ENTITIES = {
    "members": lambda size: PERSON + many(lambda i: f"    m{i} = 'a'\n", size - len(PERSON), "class E(Enum):\n"),
    "roles": lambda size: PERSON + many(
        lambda i: f"{{'key': 'a{i}'}},", size - len(PERSON), "H = build_entity(key='h', plural='hs', roles=[", "])\n"),
    "subroles": lambda size: PERSON + many(
        lambda i: f"'a{i}',", size - len(PERSON),
        "H = build_entity(key='h', plural='hs', roles=[{'key': 'r', 'subroles': [", "]}])\n"),
    "entities": lambda size: many(
        lambda i: f"E{i} = build_entity(key='e{i}', plural='f{i}', roles=[{{'key': 'r'}}])\n", size, PERSON),
}
# what makes the text of a module of variables of so many bytes
LARGE_VARIABLES = {
    "moves that locals take up": lambda size: many(
        lambda i: "        a=b\n", size, FORMULA + f"        b=t{'.last_month' * 100}\n", "        return 1\n"
    ).replace("(person, period)", "(p,t)"),
    "attributes": lambda size: many(lambda i: f"    a{i} = 1\n", size, CLASS),
    "one attribute again": lambda size: many(lambda i: "    label = 'a'\n", size, CLASS),
    "locals": lambda size: many(lambda i: f"        a{i} = 1\n", size, FORMULA, "        return a0\n"),
    "conditions": chosen,
    "names in two cases": lambda size: many(lambda i: f"class {cased(i)}(Variable):\n" + ATTRIBUTES, size, ""),
    "formulas": lambda size: many(dated, size, CLASS),
}
# what makes the files of a rule set of so many bytes
LARGE_FILES = {
    "parameters that locals take up": lambda size: by_members(size, "[e][e]", ""),
    "pairs of members that choose": lambda size: by_members(size, "", "[e][e]"),
}


def large(name, size):
    """The files of a large rule set."""
    if name in LARGE_FILES:
        return LARGE_FILES[name](size)
    if name in LARGE_ENTITIES:
        return {"entities.py": LARGE_ENTITIES[name](size)}
    return {"entities.py": PERSON, "variables/a.py": LARGE_VARIABLES[name](size)}


def try_large(fuzz):
    """Checks the large rule sets, and such of half their size."""
    folder = fuzz.room / "rules"
    for name in [*LARGE_ENTITIES, *LARGE_VARIABLES, *LARGE_FILES]:
        times = []
        for size in (common.MOST_BYTES // 2, common.MOST_BYTES):
            files = large(name, size)
            common.put(folder, files)
            fault, kind = fault_of(fuzz, files)
            fuzz.check(fault is None, f"{name}: {fault}")
            times.append(common.least_seconds(lambda: fuzz.call("check", folder)))
        half, whole = times
        fuzz.is_linear(f"{name}, {kind}", whole, half)


def started(place):
    """A formula from a day on."""
    day = datetime.date(2000, 1, 1) + datetime.timedelta(place)
    return f"    def formula_{day:%Y_%m_%d}(p, t):\n        return {place}\n"


def try_started(fuzz):
    """Sums values of days over years, of which the first have a formula a day: with twice the formulas twice the years."""
    sums = FORMULA.replace("class v", "class w").replace("MONTH", "YEAR")
    sums += "        return person('v', period, options=[ADD])\n"
    folder, file = fuzz.room / "rules", fuzz.room / "sums.yaml"
    times = []
    for parts in (1, 2):
        days = many(started, common.MOST_BYTES * parts // 2, CLASS.replace("MONTH", "DAY"))
        common.put(folder, {"entities.py": PERSON, "variables/a.py": days, "variables/b.py": sums})
        file.write_text("columns:\n" + "".join(f"- w@{year}\n" for year in range(2000, 2000 + 50 * parts)))
        out, err, status = fuzz.call("calc", folder, file)
        first = f"\t2000\t{sum(range(366))}\n"
        fuzz.check(status == 0 and first in out, f"formulas of days: status {status}: {out[:99]}{err}")
        times.append(common.least_seconds(lambda: fuzz.call("calc", folder, file)))
    half, whole = times
    fuzz.is_linear("formulas of days", whole, half)


def run(fuzz):
    """Checks all rule sets."""
    kinds = collections.Counter()
    for folder in common.rule_folders():
        try_changed(fuzz, folder, kinds)
    told = ", ".join(f"{kind} {count}" for kind, count in sorted(kinds.items()))
    fuzz.note(f"{sum(kinds.values())} changed rule sets: {told}")
    try_large(fuzz)
    try_started(fuzz)
