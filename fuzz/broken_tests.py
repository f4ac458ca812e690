"""What breaks a drawn test on purpose. Each puts a mark before what is told of, and answers the word."""
from drawn_tests import YEARS, quoted

MARK = "\x01"  # stands before what a refusal tells of
TEXTS = ["[a]", "{a: b}", "", "~", "null"]
WRONG_MARGINS = [
    "-1", "-0.0001", "x", "'1'", "1e3", "0x1", "1,5", "1/2", ".", "true", "9223372036854775808",
    "0.0000000000000000001", "01", *TEXTS,
]
WRONG_LISTS = ["", "~", "{a: b}", "[[a]]", "[a, ~]", "[a, {b: c}]"]
# values that a key may not have
WRONG_VALUES = {
    "period": [
        "2017-13", "soon", "''", "2017-01-32", "year:2017-01-05", "0000", "10000", "2017-1-1-1", "month:2017",
        "year:2017:0", "year:2017:1201", "[2017]", "{2017: 1}", "", "~",
    ],
    "absolute_error_margin": WRONG_MARGINS, "relative_error_margin": WRONG_MARGINS, "name": TEXTS, "description": TEXTS,
    "keywords": WRONG_LISTS, "only_variables": WRONG_LISTS, "ignore_variables": WRONG_LISTS,
}
NO_KEYS = [
    "outputs", "inputs", "filter", "only_variable", "Name", "columns", "axes", "absolute_error_margins", "name_",
    "' output'",
]
REFORM_KEYS = ["reforms", "extensions"]
BREAKABLE = ["unknown", "unknown", "reform", "output", *WRONG_VALUES]


def break_keys(lot, test):
    """A fault of a test's keys."""
    key = lot.choice(BREAKABLE)
    word = "UseReform" if key == "reform" else "BadTest"
    if key in ("unknown", "reform"):
        key = lot.choice(NO_KEYS if key == "unknown" else REFORM_KEYS)
        test.sections[key] = [f"{MARK}{key}: {lot.choice(['1', '', '[1]', '{a: 1}'])}"]
    elif key == "output":
        del test.sections["output"]
        if test.sections:
            first = next(iter(test.sections))
            test.sections[first] = [MARK + test.sections[first][0], *test.sections[first][1:]]
        return "BadTest"
    else:
        test.sections[key] = [f"{MARK}{key}: {lot.choice(WRONG_VALUES[key])}"]
    if lot.random() < 0.3:
        test.sections = dict(sorted(test.sections.items(), key=lambda section: section[0] != key))
    return word


WRONG_INPUTS = [
    ("UnknownEntity", ["  persons: {Ann: {}}", f"  {MARK}castles: {{}}"]),
    ("UnknownEntity", ["  persons: {Ann: {}}", f"  {MARK}person: {{}}"]),
    ("UnknownVariable", ["  salary: {2017-01: 1}", f"  {MARK}salry: 1"]),
    ("UnknownVariable", ["  persons:", "    Ann:", f"      {MARK}rent: {{2017-01: 1}}"]),
    ("UnknownPerson", ["  persons: {Ann: {}}", "  households:", f"    home: {{parents: [Ann], children: {MARK}Bob}}"]),
    ("UnknownPerson", [f"  {MARK}persons: {{}}"]),
    ("PersonTwice", [
        "  persons: {Ann: {}}", "  households:", "    home:", "      parents: Ann", f"      children: {MARK}Ann",
    ]),
    ("RoleFull", [
        "  persons: {Ann: {}, Bob: {}, Cid: {}}", "  households:", "    home:", "      parents:", "      - Ann",
        "      - Bob", f"      - {MARK}Cid",
    ]),
    ("BadValue", ["  salary:", f"    2017-01: {MARK}much"]),
    ("BadValue", [f"  hours: {{2017-01: {MARK}1.5}}"]),
    ("BadValue", [f"  occupancy: {{2017-01: {MARK}castle}}"]),
    ("BadValue", ["  persons:", f"    {MARK}Ann:"]),
    ("BadValue", [f"  persons: {MARK}[Ann]"]),
    ("PeriodMismatch", ["  rent:", f"    {MARK}2017: 1"]),
    ("PeriodMismatch", ["  salary:", "    2017-01: 1", f"    {MARK}2017-01-01: 1"]),
    ("PeriodMismatch", ["  yearly_tax:", f"    {MARK}soon: 1"]),
    ("InconsistentInput", ["  salary:", "    2017-01: 1", f"    {MARK}2017-1: 1"]),
]


def break_input(lot, test):
    """A fault of a situation."""
    word, lines = lot.choice(WRONG_INPUTS)
    test.sections["input"] = ["input:", *lines]
    return word


# outputs that no test may have
WRONG_OUTPUTS = [
    [f"{MARK}output:"],
    [f"output: {MARK}abc"],
    [f"output: {MARK}[]"],
    ["output:", f"{MARK}- salary: 1"],
    ["output:", "  contribution: {2017-01: 1}", f"  {MARK}salry: 1"],
    ["output:", f"  {MARK}person_: {{salary: 1}}"],
]
WRONG_SCALARS = [
    ["output:", f"  salary: {{2017-01: {MARK}[]}}"],
    ["output:", "  salary:", f"    {MARK}2017-01:"],
    ["output:", "  salary:", "    2017-01: 5", f"    {MARK}2017-02: ~"],
    ["output:", f"  salary: {{2017-01: {MARK}abc}}"],
    ["output:", f"  salary: {{2017-01: {MARK}'5'}}"],
    ["output:", f"  salary: {{2017-01: {MARK}true}}"],
    ["output:", f"  salary: {{2017-01: {MARK}{{a: 1}}}}"],
    ["output:", f"  hours: {{2017-01: {MARK}1_}}"],
    ["output:", f"  any_child: {{2017-01: {MARK}2}}"],
    ["output:", f"  is_owner: {{2017-01: {MARK}'true'}}"],
    ["output:", f"  occupancy: {{2017-01: {MARK}castle}}"],
    ["output:", f"  occupancy: {{2017-01: {MARK}1}}"],
    ["output:", "  salary:", f"    {MARK}2017: 1"],
    ["output:", "  salary:", "    2017-01: 0", f"    {MARK}soon: 1"],
    ["output:", "  yearly_tax:", f"    {MARK}2017-01: 1"],
    ["output:", "  rent:", f"    {MARK}ETERNITY: 1"],
    ["output:", "  rent:", f"    {MARK}month:2017-01:2: 1"],
]


def wrong_members(first, home):
    """Outputs by member that no test may have, for the first person and the first household."""
    return [
        ["output:", "  persons:", f"    {MARK}Nobody: {{salary: {{2017-01: 1}}}}"],
        ["output:", "  persons:", f"    {MARK}{first}:"],
        ["output:", "  persons:", f"    {first}: {MARK}5"],
        ["output:", f"  persons: {MARK}[{first}]"],
        ["output:", f"  {MARK}persons:"],
        ["output:", "  households:", f"    {home}:", f"      {MARK}parents: [Ann]"],
        ["output:", "  households:", f"    {home}:", f"      {MARK}first_parent: Ann"],
        ["output:", "  persons:", f"    {first}:", f"      {MARK}rent: {{2017-01: 1}}"],
        ["output:", "  persons:", f"    {first}:", "      salary:", f"        2017-01: {MARK}[1]"],
        ["output:", "  persons: {}", f"  {MARK}person: {{}}"],
        ["output:", f"  persons: {{{first}: {{salry: 1}}}}", f"  {MARK}salary: 1"],
        ["output:", f"  {MARK}salary: 1", "  households: {}"],
    ]


def wrong_outputs(test):
    """Outputs that the test may not have."""
    persons, home = test.drawn.members["persons"], quoted(test.drawn.members["households"][0])
    first, count = quoted(persons[0]), len(persons)
    wrong = WRONG_OUTPUTS + [
        ["output:", "  salary:", f"    2017-01: {MARK}[" + ", ".join(["1"] * (count + 1)) + "]"],
        ["output:", "  salary:", "    2017-01:", f"    {MARK}- 1", *(["    - 1"] * count)],
    ] + WRONG_SCALARS + wrong_members(first, home)
    if count > 1:
        wrong.append(["output:", f"  {MARK}person: {{salary: {{2017-01: 1}}}}"])
        wrong.append(["output:", "  salary:", "    2017-01:", *(["    - 1"] * (count - 1)), f"    {MARK}-"])
    if test.period is None or test.period in YEARS:
        wrong.append(["output:", f"  {MARK}salary: 1"])
        wrong.append(["output:", f"  {MARK}contribution: [1]"])
        wrong.append(["output:", "  persons:", f"    {first}:", f"      {MARK}hours: 1"])
    else:
        wrong += [["output:", f"  {MARK}yearly_tax: 1"], ["output:", f"  {MARK}salary:"]]
    return wrong


def break_output(lot, test):
    """A fault of outputs."""
    test.sections["output"] = lot.choice(wrong_outputs(test))
    return "BadOutput"


def unmarked(test):
    """Takes the marks of a test away."""
    test.sections = {key: [line.replace(MARK, "") for line in lines] for key, lines in test.sections.items()}


def broken(lot, test):
    """Breaks a test by one or two faults; the first in the order of keys, situation and outputs keeps its mark."""
    stages = sorted(lot.sample([0, 1, 2], lot.choice([1, 1, 2])), reverse=True)
    word = None
    for stage in stages:
        unmarked(test)
        word = (break_keys, break_input, break_output)[stage](lot, test)
    return word
