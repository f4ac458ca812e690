"""Tests of `fisca test` drawn by lot over tests/rules/household, with what is to be reported of them."""
import re
from fractions import Fraction

import common
from common import Answer, number_text

RULES = common.TOP / "tests/rules/household"
MONTHS = ["2016-11", "2017-01", "2017-02"]
YEARS = ["2016", "2017", "year:2016-04"]
# other texts of periods, and what is printed for them
SPELLED = {
    "2017-1": "2017-01", "month:2017-02": "2017-02", "year:2017": "2017", "year:2017-01:1": "2017",
    "month:2016-11:1": "2016-11",
}
OCCUPANCIES = ["tenant", "owner"]
# variables with their kinds
VARIABLES = {
    "persons": {
        "salary": "number", "hours": "number", "age": "number", "basic_income": "number", "contribution": "number",
        "ratio": "number", "bare": "number", "loop": "number", "step": "number", "half_age": "number",
    },
    "households": {
        "rent": "number", "fee": "number", "yearly_tax": "number", "occupancy": "Enum", "housing_allowance": "number",
        "monthly_tax": "number", "yearly_fee": "number", "bad_add": "number", "oldest_child": "number",
        "any_child": "bool", "parent_pay": "number", "is_owner": "bool",
    },
}
OF_YEARS = {"yearly_tax", "yearly_fee"}
TRUTHS = {True: ["true", "True", "yes", "on", "1", "1.0"], False: ["false", "FALSE", "no", "Off", "0", "-0"]}
NAMES = [
    "near", "far", "'it''s'", '""', '"a \\t tab"', '"two\\nlines"', "7", "true", "2017-01", "Zoë # 1", "'#'",
    "a, [b]:c",
]
MARGINS = [
    Fraction(0), Fraction(1), Fraction(1, 100), Fraction(1, 4), Fraction(5, 2), Fraction(10), Fraction(1, 10**18),
    Fraction(common.MOST),
]

# what stands next to the bound of a margin, and numbers at the limits
NEAR = [0, 0, Fraction(1, 1000), Fraction(-1, 1000), Fraction(1, 10**15)]
FAR = [
    Fraction(1, 10**18), Fraction(common.MOST), Fraction(-common.MOST), Fraction(common.MOST, 10**18), Fraction(-1),
]


def literal(lot, number):
    """A decimal literal of a number that has one, or of one nearby; and what it stands for."""
    text = number_text(number)
    if "/" in text or len(text.partition(".")[2]) > 18:
        number = Fraction(round(number * 1000), 1000)
    if common.is_wide(number):
        number = Fraction(max(-common.MOST, min(common.MOST, int(number))))
    text, choice = number_text(number), lot.random()
    if choice < 0.1:
        text = text + (".0" if "." not in text else "0")
    elif choice < 0.2 and not text.startswith("-"):
        text = "+" + text
    elif choice < 0.3 and text.startswith("0."):
        text = text[1:]
    return text, number


# Situations

# the periods that a variable is given for
GIVEN = {
    "salary": ["2017-01", "2017-02", "2017"], "fee": ["2017-01", "year:2016-04"],
    "yearly_tax": ["2017", "year:2017-02"], "age": ["2017-01", "2016", "2017"],
}
PERSONAL, SHARED = ["salary", "hours", "age"], ["rent", "fee", "yearly_tax", "occupancy"]
# forms of a family: its households with the persons of each role, and who is named by none
FAMILIES = {
    "family": ([("home", "parents: [{0}, {1}], children: [{2}]")], []),
    "two homes": ([("home", "parents: [{1}]"), ("hut", "children: {2}")], [0]),
    "twins": ([("{1}", "parents: {0}")], [1, 2]),
}


class DrawnInput:
    """What is given: the lines of the input, and the names of the members of each kind."""

    def __init__(self, lines, persons, households):
        self.lines, self.members = lines, {"persons": persons, "households": households}


def pairs(lot, variables):
    """Some inputs, as text in braces."""
    said = []
    for name in variables:
        if lot.random() > 0.6:
            continue
        if name == "occupancy":
            said.append(f"occupancy: {{{lot.choice(MONTHS)}: {lot.choice(OCCUPANCIES)}}}")
            continue
        if name in ("age", "hours"):
            value = Fraction(lot.randint(0, 90))
        else:
            value = Fraction(lot.randint(-400, 12000), lot.choice([1, 4, 100]))
        said.append(f"{name}: {{{lot.choice(GIVEN.get(name, MONTHS))}: {number_text(value)}}}")
    if "salary" in variables and lot.random() < 0.2:
        said.append("step: {2010-01: 1}")
    return said


def family(lot, form):
    """An input of three persons in households."""
    names = lot.choice([["Ann", "Bob", "Cid"], ["Ann", '"B o b"', "Zoë"]])
    lines = ["input:", "  persons:"] + [f"    {name}: {{{', '.join(pairs(lot, PERSONAL))}}}" for name in names]
    names = [name.strip('"') for name in names]
    households, free = FAMILIES[form]
    homes = []
    lines.append("  households:")
    for home, roles in households:
        home, roles = home.format(*names), roles.format(*names)
        homes.append(home)
        lines.append(f"    {home}:")
        lines += [f"      {pair}" for pair in [*re.split(r", (?=children)", roles), *pairs(lot, SHARED)]]
    if lot.random() < 0.3:
        split = lines.index("  households:")
        lines = lines[:1] + lines[split:] + lines[1:split]
    # who is named by no household has one of the same name behind those
    return DrawnInput(lines, names, homes + [names[place] for place in free])


def drawn_input(lot):
    """An input of some form."""
    form = lot.choice(["family", "family", "family", "alone", "alone", "nothing", "singular", "two homes", "twins"])
    if form == "nothing":
        return DrawnInput(lot.choice([[], ["input:"], ["input: ~"], ["input: {}"]]), ["person"], ["person"])
    if form == "alone":
        said = pairs(lot, PERSONAL + SHARED)
        is_block = said and lot.random() < 0.5
        lines = ["input:", *(f"  {pair}" for pair in said)] if is_block else [f"input: {{{', '.join(said)}}}"]
        return DrawnInput(lines, ["person"], ["person"])
    if form == "singular":
        home = ", ".join(["parents: person", *pairs(lot, SHARED)])
        person = ", ".join(pairs(lot, PERSONAL))
        return DrawnInput(["input:", f"  person: {{{person}}}", f"  household: {{{home}}}"], ["person"], ["household"])
    return family(lot, form)


# Outputs


class Output:
    """An expected value: of a variable, one of its members and a period."""

    def __init__(self, entity, variable, member, period, expected):
        self.entity, self.variable, self.member, self.period, self.expected = entity, variable, member, period, expected


def period_of(lot, variable):
    """A period of a variable as it is written, and as it is printed."""
    period = lot.choice(YEARS if variable in OF_YEARS else MONTHS)
    if lot.random() < 0.15:
        spelled = [other for other, plain in SPELLED.items() if plain == period]
        if spelled:
            return lot.choice(spelled), period
    return period, period


class Values:
    """The values of keys in an input, each asked of `fisca calc`."""

    def __init__(self, fuzz, lines):
        self.fuzz, self.lines, self.known = fuzz, lines, {}

    def of(self, variable, member, period):
        """The text of a value, or the name and the key of a fault.

        Raises common.Wrong where the input is refused.
        """
        key = f"{variable}#{member}@{period}"
        if key not in self.known:
            path = self.fuzz.room / "calc.yaml"
            path.write_text("\n".join([*self.lines, f'columns: ["{key}"]']) + "\n")
            out, err, status = self.fuzz.call("calc", RULES, path)
            if status not in (0, 4):
                raise common.Wrong(f"{path.read_text()}{key}: {err}")
            is_value = status == 0
            told = out.removesuffix("\n").split("\t")[-1] if is_value else err.removeprefix("fisca: ")
            self.known[key] = ("value" if is_value else "fault", told)
        return self.known[key]


def expectation(lot, kind, found, margins):
    """A scalar that is expected where this value comes out, and what it stands for."""
    if kind == "bool":
        truth = lot.random() < 0.5 if found[0] == "fault" else (found[1] == "true") == (lot.random() < 0.7)
        return lot.choice(TRUTHS[truth]), truth
    if kind == "Enum":
        name = lot.choice(OCCUPANCIES) if lot.random() < 0.4 else found[1]
        return lot.choice([name, f"'{name}'", f'"{name}"']), name
    absolute, relative = margins
    number, choice = Fraction(lot.randint(-100, 100)), lot.random()
    if found[0] == "value":
        number = Fraction(found[1])
    if choice < 0.35:
        pass
    elif choice < 0.6 and absolute is not None:
        number += lot.choice([1, -1]) * (absolute + lot.choice(NEAR))
    elif choice < 0.8 and relative is not None and relative != 1:
        number /= 1 + lot.choice([1, -1]) * relative
        number += lot.choice([0, 0, Fraction(1, 1000), Fraction(-1, 10**9)])
    elif choice < 0.85:
        number = lot.choice([Fraction(0), -number, number * 2, *FAR])
    elif choice < 0.95:
        number += Fraction(lot.randint(-2000, 2000), 1000)
    return literal(lot, number)


def verdict(margins, expected, found):
    """What is told of an output behind its key, or nothing where it passes."""
    if found[0] == "fault":
        return found[1]
    if isinstance(expected, bool):
        expected = "true" if expected else "false"
    if isinstance(expected, str):
        return None if expected == found[1] else f"expected {expected}, got {found[1]}"
    absolute, relative = margins
    difference = Fraction(found[1]) - expected
    bound = None if relative is None else relative * expected
    if common.is_wide(difference) or (bound is not None and common.is_wide(bound)):
        return "TooWide"
    bounds = [limit for limit in (absolute, bound) if limit is not None] or [Fraction(0)]
    if all(abs(difference) <= abs(limit) for limit in bounds):
        return None
    return f"expected {number_text(expected)}, got {found[1]}"


class Test:
    """A test: the sections of its map by key, each a list of lines, and its outputs in order."""

    def __init__(self):
        self.sections, self.outputs, self.found = {}, [], []
        self.margins, self.drawn, self.period, self.name = (None, None), None, None, None

    def expects(self, lot, values, entity, variable, member, period):
        """One output; answers its scalar."""
        found = values.of(variable, member, period)
        scalar, expected = expectation(lot, VARIABLES[entity][variable], found, self.margins)
        self.outputs.append(Output(entity, variable, member, period, expected))
        return scalar


def value_lines(key, said, column):
    """The lines of a variable's value: a scalar of the test's period beside its key, or a map from periods."""
    if said[0][0] is None:
        return [f"{' ' * column}{key}: {said[0][1]}"]
    return [f"{' ' * column}{key}:"] + [f"{' ' * (column + 2)}{period}: {scalar}" for period, scalar in said]


def dated(lot, test, variable):
    """Some periods of a variable: as they are written, nothing for the test's own, and as they are printed."""
    fits = test.period is not None and (variable in OF_YEARS) == (test.period in YEARS)
    if fits and lot.random() < 0.6:
        return [(None, test.period)]
    periods = []
    for _period in range(lot.choice([1, 1, 2])):
        written, plain = period_of(lot, variable)
        if written not in [other for other, _plain in periods]:
            periods.append((written, plain))
    return periods


def member_lines(lot, test, values, entity, member, column):
    """The outputs of one member, with no variable twice."""
    lines = []
    for variable in lot.sample(list(VARIABLES[entity]), lot.randint(0, 3)):
        said = []
        for written, plain in dated(lot, test, variable):
            said.append((written, test.expects(lot, values, entity, variable, member, plain)))
        lines += value_lines(variable, said, column)
    return lines


def below(key, lines, column):
    """A key with lines below it, or with an empty map."""
    return [f"{' ' * column}{key}:"] + lines if lines else [f"{' ' * column}{key}: {{}}"]


def quoted(name):
    """A name as a key of YAML."""
    return f'"{name}"' if " " in name else name


def direct_lines(lot, test, values):
    """Outputs by variable: of all members a list, or one scalar."""
    lines = []
    for entity, variable in lot.sample([(e, v) for e in VARIABLES for v in VARIABLES[e]], lot.randint(0, 4)):
        count, said = len(test.drawn.members[entity]), []
        for written, plain in dated(lot, test, variable):
            if lot.random() < 0.5:
                scalars = [test.expects(lot, values, entity, variable, member, plain) for member in range(count)]
                said.append((written, "[" + ", ".join(scalars) + "]"))
            else:
                scalar = test.expects(lot, values, entity, variable, 0, plain)
                expected = test.outputs[-1].expected
                test.outputs += [Output(entity, variable, member, plain, expected) for member in range(1, count)]
                said.append((written, scalar))
        lines += value_lines(variable, said, 2)
    return lines


def output_lines(lot, test, values):
    """The section of the outputs."""
    if lot.random() < 0.45:
        return below("output", direct_lines(lot, test, values), 0)
    lines = []
    for entity in lot.sample(["persons", "households"], lot.randint(1, 2)):
        names = test.drawn.members[entity]
        if len(names) == 1 and lot.random() < 0.5:
            lines += below(entity[:-1], member_lines(lot, test, values, entity, 0, 4), 2)
            continue
        inner = []
        for name in lot.sample(sorted(set(names)), lot.randint(1, len(set(names)))):
            inner += below(quoted(name), member_lines(lot, test, values, entity, names.index(name), 6), 4)
        lines += below(entity, inner, 2)
    return below("output", lines, 0)


DESCRIPTIONS = [["description: words"], ["description: |", "  Some words: [", "", "  and more"], ["description: ''"]]
KEYWORDS = [["keywords: a"], ["keywords: [a, 'b', 7]"], ["keywords: []"], ["keywords:", "- a", "- b"]]


def drawn_sections(lot, test, values):
    """The sections of a test by their keys."""
    sections = {}
    if lot.random() < 0.8:
        test.name = lot.choice(NAMES)
        sections["name"] = [f"name: {test.name}"]
    if test.period:
        sections["period"] = [f"period: {lot.choice([test.period, test.period, repr(test.period)])}"]
    for key, limit in zip(("absolute_error_margin", "relative_error_margin"), test.margins):
        if limit is not None:
            sections[key] = [f"{key}: {literal(lot, limit)[0]}"]
    if lot.random() < 0.2:
        sections["description"] = lot.choice(DESCRIPTIONS)
    if lot.random() < 0.2:
        sections["keywords"] = lot.choice(KEYWORDS)
    if test.drawn.lines:
        sections["input"] = test.drawn.lines
    sections["output"] = output_lines(lot, test, values)
    return sections


def drawn_test(fuzz):
    """A test, with the values of what it expects."""
    lot, test = fuzz.lot, Test()
    test.drawn = drawn_input(lot)
    test.period = lot.choice([*MONTHS, *MONTHS, "2017", None])
    test.margins = tuple(lot.choice(MARGINS) if lot.random() < 0.4 else None for _margin in range(2))
    values = Values(fuzz, ([f"period: {test.period}"] if test.period else []) + test.drawn.lines)
    sections = drawn_sections(lot, test, values)
    keys = list(sections)
    lot.shuffle(keys)
    test.sections = {key: sections[key] for key in keys}
    test.found = [values.of(output.variable, output.member, output.period) for output in test.outputs]
    return test


def title(name, number):
    """What a report calls a test."""
    if name is None:
        return f"test {number}"
    if name.startswith('"'):
        return name[1:-1].replace("\\t", "\t").replace("\\n", "\n")
    if name.startswith("'"):
        return name[1:-1].replace("''", "'")
    return name.partition(" #")[0]


def report(tests):
    """What is to be answered to tests."""
    text, passed = "", 0
    for number, test in enumerate(tests, 1):
        lines = []
        for output, found in zip(test.outputs, test.found):
            told = verdict(test.margins, output.expected, found)
            if told is not None:
                member = test.drawn.members[output.entity][output.member]
                lines.append(f"  {output.variable} {member} {output.period}: {told}\n")
        passed += not lines
        text += ("failed " if lines else "ok ") + title(test.name, number) + "\n" + "".join(lines)
    failed = len(tests) - passed
    return Answer(text + f"passed {passed}, failed {failed}\n", "", int(failed > 0))
