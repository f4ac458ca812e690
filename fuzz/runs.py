"""Run files drawn by lot over tests/rules/household, run by `fisca run`.

Each position is worked out once more by a file of `fisca calc` whose input has the values of the axes, reckoned here.
Lines, last lines, statuses and what is told on standard error have to be the same: of the whole run, and of parts of
it. Then prefixes of a run file have to be answered.
"""
import operator
from fractions import Fraction

import common

COUNT = 100
RULES = common.TOP / "tests/rules/household"
PERSONS = ["Ann", "Bob", "Cid"]
# variables of numbers: entity, whether they are whole, periods for which they may be given
NUMBERS = {
    "salary": ("persons", False, ["2017-01", "2017-02", "2017"]),
    "hours": ("persons", True, ["2017-01", "2017-02"]),
    "age": ("persons", True, ["2017-01", "2016", "2017"]),
    "rent": ("households", False, ["2016-11", "2017-01"]),
    "fee": ("households", False, ["year:2016-04", "2017-01"]),
    "yearly_tax": ("households", False, ["2017", "year:2017-02"]),
}
MONTHS = ["2016-11", "2017-01", "2017-02"]
COLUMNS = {
    "persons": ["salary", "hours", "age", "basic_income", "contribution", "ratio", "bare", "loop", "half_age"],
    "households": [
        "rent", "housing_allowance", "monthly_tax", "oldest_child", "any_child", "parent_pay", "is_owner", "bad_add",
    ],
}
SIGNS = {
    ">=": operator.ge, "<=": operator.le, "==": operator.eq, "!=": operator.ne, ">": operator.gt, "<": operator.lt,
}


def drawn_column(lot):
    """A column, in the situation's period or in a month."""
    entity = lot.choice(list(COLUMNS))
    name = lot.choice(COLUMNS[entity])
    index = lot.randrange(len(PERSONS)) if entity == "persons" else 0
    return f"{name}#{index}@{lot.choice(MONTHS)}" if lot.random() < 0.7 else f"{name}#{index}"


def drawn_axis(lot, name, index, count):
    """An axis over a variable of a member, of so many values."""
    entity, is_whole, periods = NUMBERS[name]
    low = Fraction(lot.randint(-2000, 4000), lot.choice([1, 1, 4, 100]))
    step = Fraction(lot.randint(-500, 1500), lot.choice([1, 1, 2, 8]))
    if name == "age":
        low, step = Fraction(lot.randint(0, 60)), Fraction(lot.randint(0, 12), lot.choice([1, 2]))
    return {
        "name": name, "index": index, "period": lot.choice(periods), "count": count, "min": low, "step": step,
        "max": low + step * (count - 1), "is_whole": is_whole, "entity": entity,
    }


def drawn_groups(lot):
    """Groups of axes, one at least; no two axes of one variable and member."""
    groups, taken = [], set()
    for _group in range(lot.randint(1, 3)):
        count, group = lot.randint(1, 4), []
        for _axis in range(lot.randint(1, 2)):
            name = lot.choice(list(NUMBERS))
            index = lot.randrange(len(PERSONS)) if NUMBERS[name][0] == "persons" else 0
            if (name, index) not in taken:
                taken.add((name, index))
                group.append(drawn_axis(lot, name, index, count))
        if group:
            groups.append(group)
    return groups or drawn_groups(lot)


def drawn_inputs(lot, groups):
    """What is given besides, as a dict from entity and member to a dict from variable and period to value."""
    moved = {(axis["name"], axis["index"]) for group in groups for axis in group}
    given = {("persons", name): {} for name in PERSONS}
    given["households", "home"] = {}
    for name, (entity, _is_whole, periods) in NUMBERS.items():
        members = PERSONS if entity == "persons" else ["home"]
        for index, member in enumerate(members):
            if (name, index) not in moved and lot.random() < 0.6:
                period = lot.choice(periods)
                is_small = name in ("age", "hours")
                value = Fraction(lot.randint(0, 90)) if is_small else Fraction(lot.randint(0, 12000), 4)
                given[entity, member][name, period] = value
    return given


def pairs(inputs):
    """The inputs of a member, in a line."""
    return ", ".join(f"{name}: {{{period}: {common.number_text(value)}}}" for (name, period), value in inputs.items())


def input_lines(given):
    """The input as lines of YAML."""
    lines = ["input:", "  persons:"]
    lines += [f"    {name}: {{{pairs(given['persons', name])}}}" for name in PERSONS]
    home = ", ".join(filter(None, ["parents: [Ann, Bob], children: [Cid]", pairs(given["households", "home"])]))
    return [*lines, "  households:", f"    home: {{{home}}}"]


def drawn_file(lot, groups, given):
    """The text of a run file, its conditions and its columns."""
    conditions = []
    for _condition in range(lot.choice([0, 1, 1, 2])):
        conditions.append((drawn_column(lot), lot.choice(list(SIGNS)), Fraction(lot.randint(-4, 4000), 4)))
    columns = [drawn_column(lot) for _column in range(lot.randint(0, 3))]
    lines = ["period: 2017-01", *input_lines(given), "axes:"]
    for group in groups:
        for place, axis in enumerate(group):
            low, high = common.number_text(axis["min"]), common.number_text(axis["max"])
            said = f"name: {axis['name']}, index: {axis['index']}, period: {axis['period']}, count: {axis['count']}"
            lines.append(("- - " if place == 0 else "  - ") + f"{{{said}, min: {low}, max: {high}}}")
    told = ", ".join(f'"{column} {sign} {common.number_text(number)}"' for column, sign, number in conditions)
    lines.append(f"filter: [{told}]")
    lines.append("columns: [" + ", ".join(f'"{column}"' for column in columns) + "]")
    return "\n".join(lines) + "\n", conditions, columns


def values_at(groups, position):
    """The axes with their values at a position; the first group turns fastest."""
    values = []
    for group in groups:
        position, place = divmod(position, group[0]["count"])
        for axis in group:
            value = axis["min"] + (axis["step"] * place if axis["count"] > 1 else 0)
            values.append((axis, Fraction(int(value)) if axis["is_whole"] else value))
    return values


def is_met(sign, number, cell):
    """Whether a condition holds for the text of a value; of a truth none does."""
    return cell not in ("true", "false") and SIGNS[sign](Fraction(cell), number)


def expected_row(fuzz, groups, given, conditions, columns, position):
    """What a position gives: None where it is dropped, ("line", TEXT) or ("fault", TEXT); "refused" where `fisca calc`
    refuses what the axes give there.

    Raises common.Wrong where it answers something else.
    """
    values = values_at(groups, position)
    here = {member: dict(inputs) for member, inputs in given.items()}
    for axis, value in values:
        member = PERSONS[axis["index"]] if axis["entity"] == "persons" else "home"
        here[axis["entity"], member][axis["name"], axis["period"]] = value
    asked = ", ".join(f'"{column}"' for column in [column for column, _sign, _number in conditions] + columns)
    path = fuzz.room / "calc.yaml"
    path.write_text("\n".join(["period: 2017-01", *input_lines(here), f"columns: [{asked}]"]) + "\n")
    out, err, status = fuzz.call("calc", RULES, path)
    if status == 3:
        return "refused"
    cells = [line.split("\t")[3] for line in out.splitlines()]
    if not all(is_met(sign, number, cell) for (_column, sign, number), cell in zip(conditions, cells)):
        return None
    if status == 4:
        return "fault", err.removeprefix("fisca: ")
    if status != 0:
        raise common.Wrong(f"{path.read_text()}{err}, status {status}")
    front = [str(position)] + [common.number_text(value) for _axis, value in values]
    return "line", "\t".join(front + cells[len(conditions):])


def expected_rows(fuzz, groups, given, conditions, columns):
    """What each position gives, or None where `fisca calc` refuses what the axes give."""
    size, rows = 1, []
    for group in groups:
        size *= group[0]["count"]
    for position in range(size):
        row = expected_row(fuzz, groups, given, conditions, columns, position)
        if row == "refused":
            return None
        rows.append(row)
    return rows


def wanted_answer(rows, start, limit):
    """What a run over these rows is to answer, from a start, of so many lines at most, or of all."""
    lines = []
    for position in range(start, len(rows)):
        if rows[position] is None or len(lines) == limit:
            continue
        kind, text = rows[position]
        if kind == "fault":
            return common.Answer("".join(lines), f"fisca: position {position}: {text}", 4)
        lines.append(text + "\n")
    last = int(lines[-1].split("\t")[0]) + 1 if lines else start
    is_done = len(lines) != limit or last == len(rows)
    return common.Answer("".join(lines) + ("end\n" if is_done else f"more {last}\n"), "", 0)


def try_parts(fuzz, path, rows):
    """Runs a run file whole, and two parts of it."""
    lot, size = fuzz.lot, len(rows)
    some = [(0, None), (lot.randint(0, size), lot.choice([None, 0, 1, 2, 3])), (0, lot.randint(1, 4))]
    for start, limit in some:
        words = (["--from", start] if start else []) + ([] if limit is None else ["--rows", limit])
        made = fuzz.call("run", RULES, path, *words)
        fuzz.same(made, wanted_answer(rows, start, limit), f"{path.read_text()}from {start}, {limit} rows")


def try_prefixes(fuzz, path, text):
    """Runs beginnings of a run file."""
    for length in range(0, len(text), 3):
        path.write_text(text[:length])
        answer = fuzz.call("run", RULES, path)
        fuzz.check(answer.status in (0, 3, 4), f"a prefix of {length} characters: {answer}\n{text[:length]}")


def run(fuzz):
    """Runs all run files."""
    refused = faults = positions = 0
    path, text = fuzz.room / "run.yaml", ""
    for _file in range(fuzz.count):
        groups = drawn_groups(fuzz.lot)
        given = drawn_inputs(fuzz.lot, groups)
        text, conditions, columns = drawn_file(fuzz.lot, groups, given)
        path.write_text(text)
        answer = fuzz.call("run", RULES, path)
        rows = expected_rows(fuzz, groups, given, conditions, columns)
        if answer.status == 3 or rows is None:
            refused += 1
            is_of_run = "BadCondition" in answer.err or "BadBound" in answer.err
            fuzz.check(is_of_run or (answer.status == 3 and rows is None), f"{text}one is refused alone: {answer}")
            continue
        positions, faults = positions + len(rows), faults + (answer.status == 4)
        try_parts(fuzz, path, rows)
    try_prefixes(fuzz, path, text)
    fuzz.note(f"{fuzz.count} run files, {positions} positions, {faults} runs that a fault ended, {refused} refused")
