"""Formulas made by lot, of persons and of households, each worked out by `fisca calc` and by a reckoner with exact
fractions that stands here.

Formulas have literals, inputs of other periods, persons and groups, parameters, a scale, totals over members and roles,
`where` and `select`, comparisons, rounding, and sums and products that are too wide. Wanted is the line with the value,
or the fault with its key.
"""
import math
import operator
from fractions import Fraction

import common
from common import MOST, Answer
from evaluation import INT, h, p, try_cases

COUNT = 1000
PERSONS = ["Ann", "Bob", "Cid", "Dan"]
GROUPS = [
    ("home", [(0, "parent", "first_parent"), (1, "parent", "second_parent"), (2, "child", None)]),
    ("Dan", [(3, "parent", "first_parent")]),
]
GROUP_OF = [0, 0, 0, 1]
ROLES_OF = [held[1:] for _name, members in GROUPS for held in members]
# months by their numbers: those of the years 1 to 9999, and that of the situation
FIRST, PAST, NOW = 12, 120_000, 12 * 2017

# the inputs: of each the values of persons or groups by month or year
NUMBERS = {
    "n0": {(m, NOW): Fraction(v) for m, v in enumerate(("3", "0", "-2.5", "7"))},
    "n1": {(m, NOW + k): Fraction(v) + k for m, v in enumerate(("100", "0.01", "-1", "0")) for k in (-1, 0)},
    "n2": {(m, NOW): Fraction(v) for m, v in enumerate((MOST, MOST - 1, -MOST, 2**62))},
    "n3": {(m, NOW + k): Fraction(m + k, 8) for m in range(4) for k in range(-12, 12)},
}
FLAGS = {"flag": {(m, NOW): m % 2 == 0 for m in range(4)}, "wet": {(m, NOW): m < 2 for m in range(4)}}
KINDS = {"kind": {(m, NOW): "abca"[m] for m in range(4)}}
RENTS = {"rent": {(0, NOW): Fraction(800), (1, NOW): Fraction(1, 4)}}
YEARS = {"year_sum": {(m, NOW): Fraction(10 * m + 1) for m in range(4)}}
VALUES = NUMBERS | FLAGS | KINDS | RENTS | YEARS
DEFAULTS = dict.fromkeys(NUMBERS | RENTS | YEARS, Fraction(0)) | dict.fromkeys(FLAGS, False) | {"kind": "a"}
RATES = {
    "rate": [("2010-01", Fraction(1, 4)), ("2016-12", Fraction(1, 5))],
    "late": [("2020-01", Fraction(7))],
    "ended": [("2010-01", Fraction(3)), ("2017-01", None)],
}
LITERALS = [
    "0", "1", "2", "0.5", "1_000", "3.25", "12", str(MOST), str(2**62), "0.000000000000000001", "999999999999",
]
COMPARISONS = {
    "<": operator.lt, "<=": operator.le, ">": operator.gt, ">=": operator.ge, "==": operator.eq, "!=": operator.ne,
}
BRACKETS = [(Fraction(0), Fraction(100), Fraction(1, 10)), (Fraction(100), None, Fraction(3, 10))]
ROLES = ["PARENT", "CHILD", "GUEST", "FIRST_PARENT", "SECOND_PARENT"]


class Failed(Exception):
    """A fault, and the text of the key that it is told of, or none where it is that of the formula."""

    def __init__(self, name, key=None):
        super().__init__(name)
        self.name, self.key = name, key


def fit(number):
    """A number within the limits.

    Raises Failed where it is beyond them.
    """
    if common.is_wide(number):
        raise Failed("TooWide")
    return number


def as_number(value):
    """A number, or that of a truth."""
    return Fraction(int(value)) if isinstance(value, bool) else value


def month_text(month):
    """The text of a month."""
    return f"{month // 12:04d}-{month % 12 + 1:02d}"


class Months:
    """Some months, or a calendar year.

    Raises Failed where they are not all within the years 1 to 9999.
    """

    def __init__(self, first, size=1, is_year=False):
        if first < FIRST or first + size > PAST:
            raise Failed("PeriodOutOfRange")
        self.first, self.size, self.is_year = first, size, is_year

    def moved(self, move):
        """The period that a move leads to."""
        name, by = move
        if name == "last_month":
            return Months(self.first - 1)
        if name == "last_3_months":
            return Months(self.first - 3, 3)
        if name == "this_year":
            return Months(self.first // 12 * 12, 12, True)
        return Months(self.first + by * (12 if self.is_year else 1), self.size, self.is_year)

    def text(self):
        """The text of the period."""
        if self.is_year:
            return f"{self.first // 12:04d}"
        return month_text(self.first) if self.size == 1 else f"month:{month_text(self.first)}:{self.size}"


def along(moves):
    """The period that moves lead to from the situation's."""
    period = Months(NOW)
    for move in moves:
        period = period.moved(move)
    return period


def move_text(moves):
    """Moves as a formula has them."""
    return "p" + "".join(f".offset({by})" if name == "offset" else f".{name}" for name, by in moves)


def parameter_on(name, period):
    """The value of a parameter.

    Raises Failed where it has none.
    """
    found = None
    for start, value in RATES[name]:
        if start <= month_text(period.first):
            found = value
    if found is None:
        raise Failed("ParameterUndefined")
    return found


def taxed(base):
    """What the scale makes of a base: a tenth up to 100, and three tenths of what is above."""
    total = Fraction(0)
    for threshold, upper, rate in BRACKETS:
        if base > threshold:
            top = base if upper is None else min(base, upper)
            total = fit(total + fit(rate * fit(top - threshold)))
    return total


def divided(name, member, period):
    """The value of a variable of years for a year, or the twelfth of it for a month."""
    whole = VALUES[name].get((member, period.first // 12 * 12), DEFAULTS[name])
    return whole if period.is_year else fit(whole / 12)


def added(name, member, period):
    """The sum of the values of a variable within a period."""
    total, step = Fraction(0), 12 if name in YEARS else 1
    for first in range(period.first, period.first + period.size, step):
        total = fit(total + as_number(VALUES[name].get((member, first), DEFAULTS[name])))
    return total


def ask(name, member, period, mode="plain"):
    """The value of an input for a member.

    Raises Failed where the variable is not asked for at the period.
    """
    is_yearly = name in YEARS
    who = GROUPS[member][0] if name in RENTS else PERSONS[member]
    is_month, is_year = not period.is_year and period.size == 1, period.is_year and period.size == 12
    is_fitting = {
        "plain": is_year if is_yearly else is_month,
        "divide": is_yearly and (is_year or is_month),
        "add": period.is_year or not is_yearly,
    }[mode]
    if not is_fitting:
        raise Failed("PeriodMismatch", f"{name} {who} {period.text()}")
    if mode == "divide":
        return divided(name, member, period)
    if mode == "add":
        return added(name, member, period)
    return VALUES[name].get((member, period.first), DEFAULTS[name])


def with_role(group, role):
    """The persons of a group, of a role where one is named."""
    return [who for who, one, subrole in GROUPS[group][1] if role in (None, one, subrole)]


def highest(name, values):
    """The lowest or the highest of values.

    Raises Failed where there are none.
    """
    if not values:
        raise Failed("NoMember")
    return min(values) if name == "min" else max(values)


def summed(values):
    """The sum of values, each sum within the limits."""
    total = Fraction(0)
    for value in values:
        total = fit(total + value)
    return total


def operated(sign, x, y):
    """What an operation gives.

    Raises Failed where it has no result within the limits.
    """
    if sign == "/":
        if y == 0:
            raise Failed("ZeroDivisor")
        return fit(x / y)
    return fit({"+": operator.add, "-": operator.sub, "*": operator.mul}[sign](x, y))


class Maker:
    """Makes expressions by lot: of each its text, and a function that reckons it for a person, or for a group and one
    of its persons.
    """

    def __init__(self, lot, is_group):
        self.lot, self.is_group = lot, is_group

    def moves(self):
        """Moves of a period, mostly none."""
        draw = self.lot.random()
        if draw < 0.8:
            return []
        if draw < 0.95:
            return [("last_month", 0)] if draw < 0.87 else [("offset", self.lot.choice((-2, -1, 1)))]
        ends = [("offset", -24193), ("offset", 95796), ("offset", -24192), ("offset", 95795)]
        return [self.lot.choice([("this_year", 0), ("last_3_months", 0), *ends])]

    def asked(self, names, within):
        """An input, of a person or a household, and how it is asked for."""
        name, moves = self.lot.choice(names), self.moves()
        text, mode = move_text(moves), "plain"
        if name in YEARS and self.lot.random() < 0.8:
            ways = [("divide", text, moves), ("divide", "p", []), ("add", "p.this_year", [("this_year", 0)])]
            mode, text, moves = self.lot.choice(ways)
        elif name not in KINDS and self.lot.random() < 0.15:
            mode = self.lot.choice(("add", "add", "divide"))
        said = f'("{name}", {text}' + (")" if mode == "plain" else f", options=[{mode.upper()}])")
        if within:
            return f"e.members{said}", lambda who, person: ask(name, person, along(moves), mode), mode
        return f"e{said}", lambda who, person: ask(name, who, along(moves), mode), mode

    def leaf(self, kind, within):
        """An expression without others in it."""
        draw = self.lot.random()
        if kind == "bool":
            return self.truth(draw, within)
        if kind == "Kind":
            if draw < 0.4 or (self.is_group and not within):
                member = self.lot.choice("abc")
                return f"Kind.{member}", lambda who, person: member
            return self.asked(list(KINDS), within)[:2]
        if draw < 0.45:
            return self.constant(draw)
        if self.is_group and not within:
            return self.of_group(draw)
        if not self.is_group and draw < 0.48:
            text = "e.household.nb_persons(Household.CHILD)"
            return text, lambda who, person: Fraction(len(with_role(GROUP_OF[who], "child")))
        if not self.is_group and draw < 0.55:
            moves = self.moves()
            text = f'e.household("rent", {move_text(moves)})'
            return text, lambda who, person: ask("rent", GROUP_OF[who], along(moves))
        return self.asked(list(YEARS if draw < 0.65 else NUMBERS), within)[:2]

    def truth(self, draw, within):
        """A truth without others in it."""
        if draw < 0.25:
            truth = self.lot.choice((True, False))
            return str(truth), lambda who, person: truth
        if not self.is_group and draw < 0.45:
            role = self.lot.choice(ROLES)
            return f"e.has_role(Household.{role})", lambda who, person: role.lower() in ROLES_OF[who]
        if within and draw < 0.45:
            role = self.lot.choice(ROLES)
            return f"e.members.has_role(Household.{role})", lambda who, person: role.lower() in ROLES_OF[person]
        if self.is_group and not within:
            return self.total("bool", 0)
        text, reckon, mode = self.asked(list(FLAGS), within)
        if mode == "plain":
            return text, reckon
        return f"({text} > 1)", lambda who, person: reckon(who, person) > 1

    def constant(self, draw):
        """A literal, a parameter or a part of a period's start."""
        if draw < 0.3:
            literal = self.lot.choice(LITERALS)
            value = Fraction(literal.replace("_", ""))
            return literal, lambda who, person: value
        if draw < 0.4:
            name, moves = self.lot.choice(("rate", "rate", "late", "ended")), self.moves()
            return f"parameters({move_text(moves)}).{name}", lambda who, person: parameter_on(name, along(moves))
        moves = self.moves()
        part = self.lot.choice(("year", "month"))

        def reckon(who, person):
            first = along(moves).first
            return Fraction(first // 12 if part == "year" else first % 12 + 1)
        return f"{move_text(moves)}.start.{part}", reckon

    def of_group(self, draw):
        """A number of a group."""
        if draw < 0.55:
            return "e.nb_persons(Household.CHILD)", lambda who, person: Fraction(len(with_role(who, "child")))
        return self.asked(list(RENTS), False)[:2] if draw < 0.75 else self.total("number", 0)

    def total(self, kind, height):
        """A total over the persons of a group."""
        role = self.lot.choice((None, None, "parent", "child", "guest", "second_parent"))
        named = f", role=Household.{role.upper()}" if role else ""
        text, inside = self.make(kind, height, True)
        total = self.lot.choice(("any", "all") if kind == "bool" else ("sum", "min", "max"))

        def reckon(who, person):
            values = (as_number(inside(who, one)) for one in with_role(who, role))
            if total == "sum":
                return summed(values)
            values = list(values)
            if kind == "bool":
                return any(values) if total == "any" else all(values)
            return highest(total, values)
        return f"e.{total}({self.lifted(text, kind)}{named})", reckon

    def lifted(self, text, kind):
        """An expression of members is to ask for one of them at least."""
        if "e.members" in text:
            return text
        if kind == "bool":
            return f'(e.members("wet", p) | ~e.members("wet", p)) & {text}'
        return f'e.members("n0", p) * 0 + {text}'

    def make(self, kind, height, within=False):
        """An expression of a kind, of at most this height."""
        if height <= 0 or self.lot.random() < 0.1:
            return self.leaf(kind, within)
        draw = self.lot.random()

        def one(kind):
            return self.make(kind, height - 1, within)
        if draw < 0.15:
            return self.chosen(kind, one)
        if draw < 0.25:
            return self.selected(kind, one)
        if kind == "Kind":
            return self.leaf(kind, within)
        if kind == "bool":
            return self.of_bools(draw, one)
        if self.is_group and not within and draw < 0.4:
            return self.total("number", height - 1)
        return self.of_numbers(draw, one)

    def chosen(self, kind, one):
        """An expression of one of two."""
        (c, test), (a, left), (b, right) = one("bool"), one(kind), one(kind)
        return f"where({c}, {a}, {b})", lambda who, person: (left if test(who, person) else right)(who, person)

    def selected(self, kind, one):
        """An expression of one of several."""
        arms = [(one("bool"), one(kind)) for _ in range(self.lot.randint(1, 3))]
        text = f"select([{', '.join(c for (c, _), _ in arms)}], [{', '.join(v for _, (v, _) in arms)}]"
        default = one(kind) if kind == "Kind" or self.lot.random() < 0.5 else None

        def reckon(who, person):
            for (_, test), (_, value) in arms:
                if test(who, person):
                    return value(who, person)
            if default:
                return default[1](who, person)
            return False if kind == "bool" else Fraction(0)
        return text + (f", default={default[0]})" if default else ")"), reckon

    def of_two(self, one, kinds, form, reckoned):
        """An expression of two others, both of which are worked out, the left one first."""
        (a, left), (b, right) = one(kinds[0]), one(kinds[1])

        def reckon(who, person):
            x = as_number(left(who, person))
            return reckoned(x, as_number(right(who, person)))
        return form.format(a, b), reckon

    def of_one(self, one):
        """A number of another expression."""
        a, inside = one("number")
        places = self.lot.randint(-9, 9)
        form, reckoned = self.lot.choice((
            ("(-{})", lambda x: -x),
            ("(-{})", lambda x: -x),
            ("abs_({})", abs),
            ("floor({})", lambda x: Fraction(math.floor(x))),
            ("np.ceil({})", lambda x: Fraction(math.ceil(x))),
            ("round_({})", lambda x: Fraction(round(x))),
            (f"round_({{}}, {places})", lambda x: fit(round(x, places))),
            (f"np.clip({{}}, -{places * places}, 50)", lambda x: min(max(x, Fraction(-places * places)), Fraction(50))),
        ))
        return form.format(a), lambda who, person: reckoned(as_number(inside(who, person)))

    def of_bools(self, draw, one):
        """A truth of other expressions."""
        if draw < 0.5:
            sign = self.lot.choice(list(COMPARISONS))
            return self.of_two(one, ("number", "number"), f"(({{}}) {sign} ({{}}))", COMPARISONS[sign])
        if draw < 0.6:
            return self.of_two(one, ("Kind", "Kind"), "({} == {})", operator.eq)
        if draw < 0.7:
            a, inside = one("bool")
            return f"~({a})", lambda who, person: not inside(who, person)
        sign = self.lot.choice("&|*+")
        both = (lambda x, y: bool(x and y)) if sign in "&*" else (lambda x, y: bool(x or y))
        return self.of_two(one, ("bool", "bool"), f"({{}} {sign} {{}})", both)

    def of_numbers(self, draw, one):
        """A number of other expressions."""
        if draw < 0.45:
            return self.of_one(one)
        if draw < 0.52:
            a, inside = one("number")
            return f"parameters(p).scale.calc({a})", lambda who, person: taxed(as_number(inside(who, person)))
        if draw < 0.65:
            name = self.lot.choice(("min_", "max_"))
            return self.of_two(one, ("number", "number"), name + "({}, {})", min if name == "min_" else max)
        sign = self.lot.choice("+-*/")
        kinds = self.lot.choice((("number", "number"),) * 4 + (("bool", "number"), ("number", "bool")))
        return self.of_two(one, kinds, f"({{}} {sign} {{}})", lambda x, y: operated(sign, x, y))


def printed(kind, value):
    """The text of a value after the cast to its variable.

    Raises Failed where the cast has no result.
    """
    if kind == "Kind":
        return value
    number = as_number(value)
    if kind == "bool":
        return "true" if number != 0 else "false"
    if kind == "int":
        number = Fraction(int(number))
        if not -INT <= number < INT:
            raise Failed("TooWide")
    return common.number_text(number)


def literal_of(value):
    """The text of an input's value."""
    return printed("Kind" if isinstance(value, str) else "bool" if isinstance(value, bool) else "float", value)


def inputs_of(names, member):
    """The inputs of a member, in a line."""
    parts = []
    for name in names:
        own = {month: value for (who, month), value in VALUES[name].items() if who == member}
        dated = [f"{month // 12 if name in YEARS else month_text(month)}: {literal_of(own[month])}" for month in own]
        if dated:
            parts.append(f"{name}: {{{', '.join(dated)}}}")
    return ", ".join(parts)


def situation_text():
    """The lines of the situation."""
    text = "period: 2017-01\ninput:\n  persons:\n"
    for member, name in enumerate(PERSONS):
        text += f"    {name}: {{{inputs_of([*NUMBERS, *FLAGS, *KINDS, *YEARS], member)}}}\n"
    text += f"  households:\n    home: {{parents: [Ann, Bob], children: [Cid], {inputs_of(RENTS, 0)}}}\n"
    return text + f"    Dan: {{parents: Dan, {inputs_of(RENTS, 1)}}}\n"


def drawn_case(lot, place, given):
    """A variable with a formula, and the file and the answer of one of its values."""
    is_group = lot.random() < 0.4
    kind = lot.choice(("float", "float", "float", "int", "bool", "Kind"))
    height = lot.randint(1, 4)
    text, reckon = Maker(lot, is_group).make({"float": "number", "int": "number"}.get(kind, kind), height)
    name, who = f"v{place}", lot.randrange(2 if is_group else 4)
    named = GROUPS[who][0] if is_group else PERSONS[who]
    try:
        wanted = Answer(f"{name}\t{named}\t2017-01\t{printed(kind, reckon(who, None))}\n", "", 0)
    except Failed as failed:
        wanted = Answer("", f"fisca: {failed.name} {failed.key or f'{name} {named} 2017-01'}", 4)
    return (h if is_group else p)(name, kind, text), (given + f"columns: {name}#{who}\n", wanted)


def run(fuzz):
    """Works out all formulas, over one rule set."""
    given = situation_text()
    drawn = [drawn_case(fuzz.lot, place, given) for place in range(fuzz.count)]
    inputs = [p(name) for name in NUMBERS] + [p(name, "bool") for name in FLAGS]
    inputs += [p("kind", "Kind"), h("rent"), p("year_sum", period="YEAR")]
    try_cases(fuzz, "by lot", inputs + [variable for variable, _case in drawn], [case for _variable, case in drawn])
