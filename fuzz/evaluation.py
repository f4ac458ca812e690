"""Keys worked out by `fisca calc`, with what was worked out by hand.

Faults in each operand of each operation, where the first from left to right is told; branches of `where` and `select`
that would fail and are not taken; the lowest of nobody; sums and products that are too wide by one; the casts of
`int` and `bool` at their limits; periods at the ends of time; chains of a hundred keys and of one more; cycles through
groups, persons and periods; and the stored files of `calc` of the rule sets of the repository. A file has one or more
columns: wanted are the lines of those that have a value and, for the first that has none, the fault with its key and
status 4.
"""
import common
from common import MOST, Answer

COUNT = 0
INT = 2**31
ENTITIES = """\
Household = build_entity(
    key="household",
    plural="households",
    roles=[
        {"key": "parent", "plural": "parents", "subroles": ["first_parent", "second_parent"]},
        {"key": "child", "plural": "children"},
        {"key": "guest", "plural": "guests", "max": 1},
    ],
)
Person = build_entity(key="person", plural="persons", is_person=True)


class Kind(Enum):
    a = "A"
    b = "B"
    c = "C"
"""
PARAMETERS = {
    "rate": "2010-01-01: 0.25\n2016-12-01: 0.2\n",
    "late": "values:\n  2020-01-01: 7\n",
    "ended": "values:\n  2010-01-01: 3\n  2017-01-01: null\n",
    "on": "values:\n  2000-01-01: true\n",
    "kinds": (
        "a:\n  values:\n    2000-01-01: 1\nb:\n  values:\n    2000-01-01: 2.5\nc:\n  values:\n    2030-01-01: 3\n"
    ),
    "scale": (
        "brackets:\n- threshold: {2000-01-01: 0}\n  rate: {2000-01-01: 0.1}\n"
        "- threshold: {2000-01-01: 100}\n  rate: {2000-01-01: 0.3}\n"
    ),
    "twice": (
        "brackets:\n- threshold: {2000-01-01: 5}\n  rate: {2000-01-01: 0.1}\n"
        "- threshold: {2000-01-01: 5}\n  rate: {2000-01-01: 0.3}\n"
    ),
    "never": "brackets:\n- threshold: {2030-01-01: 0}\n  rate: {2030-01-01: 0.1}\n",
}
TYPES = {"float": "float", "int": "int", "bool": "bool", "Kind": "Enum"}


def variable(name, kind, entity, period="MONTH", formula=None, more=""):
    """The class of a variable. A formula is an expression; in it `e` is the person or household, `p` the period."""
    text = f"\n\nclass {name}(Variable):\n    value_type = {TYPES[kind]}\n"
    text += f"    entity = {entity}\n    definition_period = {period}\n"
    if kind == "Kind":
        text += "    possible_values = Kind\n    default_value = Kind.a\n"
    text += more
    if formula is not None:
        text += f"\n    def formula(e, p, parameters):\n        return {formula}\n"
    return text


def rule_set(variables):
    """The files of a rule set of these variables."""
    files = {"entities.py": ENTITIES, "variables/all.py": "".join(variables)}
    return files | {f"parameters/{name}.yaml": text for name, text in PARAMETERS.items()}


def p(name, kind="float", formula=None, period="MONTH", more=""):
    """A variable of persons."""
    return variable(name, kind, "Person", period, formula, more)


def h(name, kind="float", formula=None, period="MONTH", more=""):
    """A variable of households."""
    return variable(name, kind, "Household", period, formula, more)


def own(name, move=""):
    """What a formula asks of its own person or household."""
    return f'e("{name}", p{move})'


# Each operand of an operation fails in a way of its own: `f1` divides by 0, `f2` is too wide, `f3` is the lowest of
# nobody by its household, `f4` needs an undefined parameter, `b1` to `b3` are bools that fail so.
FAILING = [
    p("zero"),
    p("one"),
    p("most"),
    p("flag", "bool"),
    p("f1", formula=f'{own("one")} / {own("zero")}'),
    p("f2", formula=f'{own("most")} + {own("one")}'),
    h("nobody", formula='e.min(e.members("one", p), role=Household.GUEST)'),
    p("f3", formula='e.household("nobody", p)'),
    p("f4", formula="parameters(p).late"),
    p("b1", "bool", own("f1")),
    p("b2", "bool", own("f2")),
    p("b3", "bool", own("f4")),
    p("k1", "Kind", f'where({own("b1")}, Kind.a, Kind.b)'),
    p("kind", "Kind"),
    p("salary"),
    h("rent"),
    h("tax", period="YEAR"),
]
F1, F2 = "ZeroDivisor f1 Ann 2017-01", "TooWide f2 Ann 2017-01"
F3, F4 = "NoMember nobody home 2017-01", "ParameterUndefined f4 Ann 2017-01"
# expressions of persons, with the fault or the value that is wanted; X is the key of the expression's own variable
BY_HAND = [
    # the first operand from left to right
    *[(f'{own("f1")} {sign} {own("f2")}', F1) for sign in ("+", "-", "*", "/")],
    *[(f'{own("f2")} {sign} {own("f1")}', F2) for sign in ("+", "-", "*", "/")],
    *[(f'{own("one")} {sign} {own("f3")}', F3) for sign in ("+", "-", "*", "/")],
    *[(f'{own("f4")} {sign} {own("f3")}', F4) for sign in ("<", "<=", ">", ">=", "==", "!=")],
    *[(f'{own("one")} {sign} {own("f2")}', F2) for sign in ("<", "<=", ">", ">=", "==", "!=")],
    # both operands of `&`, `|`, `+` and `*` of bools are worked out
    *[(f'{own("flag")} {sign} {own("b1")}', F1) for sign in ("&", "|", "+", "*")],
    *[(f'{own("b2")} {sign} {own("b1")}', F2) for sign in ("&", "|", "+", "*")],
    *[(f'{truth} {sign} {own("b3")}', F4) for sign in ("&", "|", "+", "*") for truth in ("True", "False")],
    (f'~{own("b2")}', F2),
    (f'not_({own("b1")})', F1),
    (f'-{own("f3")}', F3),
    (f'+{own("f4")}', F4),
    (f'min_({own("f1")}, {own("f2")})', F1),
    (f'max_({own("f2")}, {own("f1")})', F2),
    (f'max_({own("one")}, {own("f1")})', F1),
    (f'min_({own("zero")}, {own("f3")})', F3),
    (f'min_({own("zero")}, {own("one")}, {own("f3")})', F3),
    (f'np.logical_and({own("b2")}, {own("b1")})', F2),
    (f'np.logical_or({own("flag")}, {own("b1")})', F1),
    (f'round_({own("f1")})', F1),
    (f'round_({own("f2")}, 2)', F2),
    (f'floor({own("f3")}) + {own("f1")}', F3),
    (f'clip({own("f2")}, {own("f1")}, {own("f3")})', F2),
    (f'clip({own("one")}, {own("f1")}, {own("f3")})', F1),
    (f'clip({own("one")}, {own("zero")}, {own("f3")})', F3),
    # an operation's own fault comes behind those of its operands
    (f'{own("one")} / {own("zero")} + {own("f2")}', "ZeroDivisor X"),
    (f'{own("f2")} + {own("one")} / {own("zero")}', F2),
    (f'({own("most")} + 1) / {own("f1")}', "TooWide X"),
    (f'{own("f1")} / 0', F1),
    ("1 / 0", "ZeroDivisor X"),
    ("0 / 0", "ZeroDivisor X"),
    # conditions and branches
    (f'where({own("b1")}, {own("f2")}, {own("f3")})', F1),
    (f'where(True, {own("f2")}, {own("f1")})', F2),
    (f'where(False, {own("f2")}, {own("f1")})', F1),
    (f'where({own("flag")}, 5, {own("f1")})', 5),
    (f'where(~{own("flag")}, {own("f1")}, 6)', 6),
    (f'where({own("zero")} == 0, 1, {own("one")} / {own("zero")})', 1),
    ("where(True, 3, parameters(p).late)", 3),
    ("where(False, parameters(p).never.calc(1), 4)", 4),
    (f'where(True, 1, e("salary", p.this_year))', 1),
    (f'where(True, 2, e("salary", p.offset(-100000)))', 2),
    (f'where(False, {own("x_self")}, 3)', 3),
    (f'select([{own("flag")}, {own("b1")}], [1, 2], default={own("f2")})', 1),
    (f'select([~{own("flag")}, {own("b2")}], [1, 2])', F2),
    (f'select([~{own("flag")}, {own("flag")}, {own("b1")}], [{own("f1")}, 7, {own("f2")}])', 7),
    (f'select([False, False], [{own("f1")}, {own("f2")}])', 0),
    (f'select([False], [{own("f1")}], default={own("f3")})', F3),
    (f'select([False, True], [{own("f1")}, {own("f4")}], default={own("f3")})', F4),
    # parameters and scales: the base first, then the scale's own fault
    ("parameters(p).late", "ParameterUndefined X"),
    ("parameters(p).ended", "ParameterUndefined X"),
    ("parameters(p.last_month).ended", 3),
    ("parameters(p).rate", "0.2"),
    ("parameters(p.last_month.last_month).rate", "0.25"),
    (f'parameters(p).never.calc({own("f1")})', F1),
    ("parameters(p).never.calc(1)", "ParameterUndefined X"),
    (f'parameters(p).twice.calc({own("f2")})', F2),
    ("parameters(p).twice.calc(1)", "BadScale X"),
    ("parameters(p).scale.calc(150)", 25),
    ("parameters(p).scale.calc(-1)", 0),
    ("parameters(p).scale.calc(100)", 10),
    ("parameters(p).scale.calc(True)", "0.1"),
    (f'parameters(p).scale.calc({own("most")})', "TooWide X"),
    (f'parameters(p).kinds[{own("k1")}]', F1),
    (f'parameters(p).kinds[{own("kind")}]', "2.5"),
    ("parameters(p).kinds[Kind.c]", "ParameterUndefined X"),
    (f'parameters(p.offset(-100000)).kinds[{own("k1")}]', "PeriodOutOfRange X"),
    # what is typed and not worked out
    (f'where({own("kind")} == {own("k1")}.possible_values.b, 1, 2)', 1),
    # periods
    (own("salary", ".this_year"), "PeriodMismatch salary Ann 2017"),
    (own("salary", ".last_3_months"), "PeriodMismatch salary Ann month:2016-10:3"),
    (own("salary", ".first_day"), "PeriodMismatch salary Ann 2017-01-01"),
    ('e.household("tax", p)', "PeriodMismatch tax home 2017-01"),
    ('e.household("tax", p, options=[ADD])', "PeriodMismatch tax home 2017-01"),
    ('e("salary", p, options=[DIVIDE])', "PeriodMismatch salary Ann 2017-01"),
    ('e.household("tax", p, options=[DIVIDE])', "50/3"),
    ('e.household("tax", p.this_year, options=[DIVIDE])', 200),
    ('e.household("tax", p.this_year, options=[ADD])', 200),
    ('e.household("tax", p.last_3_months, options=[DIVIDE])', "PeriodMismatch tax home month:2016-10:3"),
    ('e.household("tax", p.first_day, options=[DIVIDE])', "PeriodMismatch tax home 2017-01-01"),
    ('e("salary", p.this_year, options=[ADD])', 130),
    ('e("salary", p.last_3_months, options=[ADD])', 7),
    ('e("salary", p.first_day, options=[ADD])', "PeriodMismatch salary Ann 2017-01-01"),
    ('e("salary", p.offset(-24193))', "PeriodOutOfRange X"),
    ('e("salary", p.offset(-24192))', 0),
    ('e("salary", p.offset(95795))', 0),
    ('e("salary", p.offset(95796))', "PeriodOutOfRange X"),
    ('e("salary", p.offset(1, "day"))', "PeriodOutOfRange X"),
    ('e("salary", p.offset(0, "day"))', "PeriodOutOfRange X"),
    ('e("salary", p.first_day.offset(31, "day").first_month)', 12),
    ("p.start.year * 10000 + p.start.month * 100 + p.start.day", 20170101),
    ("p.offset(-24192).start.year", 1),
    ("p.offset(95795).start.year", 9999),
    ("p.offset(95796).start.year", "PeriodOutOfRange X"),
    # too wide by one
    (f'{own("most")} + 0', MOST),
    (f'{own("most")} + 1', "TooWide X"),
    (f'-{own("most")} - 0', -MOST),
    (f'-{own("most")} - 1', "TooWide X"),
    (f'1 / {own("most")} * 0', 0),
    (f'{own("most")} * 1', MOST),
    (f'{own("most")} * -1', -MOST),
    ("4611686018427387904 * 2", "TooWide X"),
    ("4611686018427387903 * 2 + 1", MOST),
    ("4611686018427387904 + 4611686018427387904", "TooWide X"),
    ("-4611686018427387904 - 4611686018427387904", "TooWide X"),
    (f'{own("most")} / {own("most")}', 1),
    (f'{own("one")} / {own("most")}', f"1/{MOST}"),
    (f'1 / {own("most")} / 2', "TooWide X"),
    (f'1 / {own("most")} / {own("most")}', "TooWide X"),
    (f'1 / {own("most")} - 1 / {own("most")}', 0),
    ("3037000500 * 3037000500", "TooWide X"),
    ("3037000499 * 3037000499", 3037000499**2),
    (f'min_({own("most")}, 1) + max_(-{own("most")}, -1)', 0),
    (f'{own("most")} == {own("most")} + 0', 1),
    (f'1 / {own("most")} > 0', 1),
    (f'where({own("most")} > {own("most")} - 1, 1, 2)', 1),
    (f'round_({own("most")}, 9) - {own("most")}', 0),
    (f'round_({own("most")}, -1)', "TooWide X"),
    (f'round_(-{own("most")}, -9)', "TooWide X"),
    (f'round_(1 / {own("most")}, 9)', 0),
    (f'floor({own("most")}) + ceil(-{own("most")}) + abs_(-{own("most")})', MOST),
    (f'floor(-1 / {own("most")}) + ceil(1 / {own("most")})', 0),
    # roles
    ("e.has_role(Household.PARENT)", 1),
    ("e.has_role(Household.SECOND_PARENT)", 0),
    ("e.has_role(Household.CHILD)", 0),
    # the group of the person
    ("e.household.nb_persons()", 3),
    ("e.household.nb_persons(Household.SECOND_PARENT)", 1),
    ("1 / e.household.nb_persons(Household.GUEST)", "ZeroDivisor X"),
]
# the same of households
OF_HOUSEHOLDS = [
    ('e.min(e.members("one", p), role=Household.GUEST)', "NoMember X"),
    ('e.max(e.members("f1", p), role=Household.GUEST)', "NoMember X"),
    ('e.sum(e.members("f1", p), role=Household.GUEST)', 0),
    ('e.any(e.members("b1", p), role=Household.GUEST)', 0),
    ('e.all(e.members("b1", p), role=Household.GUEST)', 1),
    ("e.nb_persons(Household.GUEST)", 0),
    ("e.nb_persons()", 3),
    ('e.sum(e.members("f1", p))', F1),
    ('e.max(e.members("f2", p) + e.members("f1", p))', F2),
    ('e.any(e.members("b1", p))', F1),
    ('e.all(e.members("b2", p))', F2),
    ('e.sum(e.members("f1", p), role=Household.SECOND_PARENT)', "ZeroDivisor f1 Bob 2017-01"),
    ('e.sum(e.members("most", p), role=Household.FIRST_PARENT)', MOST),
    ('e.sum(e.members("most", p), role=Household.PARENT)', "TooWide X"),
    # in turn: the sum is too wide at the second person, before the third one's division by 0
    ('e.sum(where(e.members("flag", p), e.members("most", p), 1 / e.members("zero", p)))', "TooWide X"),
    ('e.sum(where(e.members("flag", p), 1, 1 / e.members("zero", p)))', "ZeroDivisor X"),
    ('e.all(where(e.members("flag", p), False, 1 / e.members("zero", p) > 0))', "ZeroDivisor X"),
    ('e.any(e.members("flag", p)) & e.all(~e.members("flag", p))', 0),
    ('e.guest("f1", p)', 0),
    ('e.guest("f1", p.offset(-100000))', "PeriodOutOfRange X"),
    ('e.guest("salary", p.this_year)', 0),
    ('e.second_parent("f2", p)', "TooWide f2 Bob 2017-01"),
    ('e.sum(parameters(p).late + e.members("f1", p))', "ParameterUndefined X"),
    ('e.sum(parameters(p).late + e.members("f1", p), role=Household.GUEST)', 0),
    ("e.nb_persons(Household.PARENT) / e.nb_persons(Household.GUEST)", "ZeroDivisor X"),
    # roles of persons
    ("e.sum(e.members.has_role(Household.PARENT)) - e.nb_persons(Household.PARENT)", 0),
    ("e.sum(e.members.has_role(Household.SECOND_PARENT))", 1),
    ("e.any(e.members.has_role(Household.GUEST))", 0),
    ('e.sum(e.members("most", p) * e.members.has_role(Household.FIRST_PARENT))', MOST),
    ('e.max(e.members("flag", p))', 1),
    ('e.min(e.members("flag", p))', 0),
    ('e.sum(e.members("flag", p))', 2),
]
CASTS = [
    (INT - 1, INT - 1), (-INT, -INT), (INT, "TooWide X"), (-INT - 1, "TooWide X"), (f"{INT - 1}.999", INT - 1),
    (f"-{INT}.999", -INT), ("0.999", 0), ("-0.999", 0), ("-1.5", -1), ("7 / 2", 3), ("-7 / 2", -3), ("True", 1),
]
BOOLS = [("0", "false"), ("1", "true"), ("-0.5", "true"), ("1 / 3", "true"), ("0 * 5", "false"), ("2 > 3", "false")]
GIVEN = f"""\
period: 2017-01
input:
  persons:
    Ann:
      one: 1
      most: {MOST}
      flag: true
      kind: b
      salary: {{2016-10: 1, 2016-11: 2, 2016-12: 4, 2017-01: 118, 2017-02: 12}}
    Bob: {{one: 1, most: {MOST}, flag: true}}
    Cid: {{one: 1, most: {MOST}, flag: false}}
  households: {{home: {{parents: [Ann, Bob], children: [Cid], tax: {{2017: 200}}}}}}
"""


def case(text, *wanted):
    """A file, and what is to be answered to it: lines, their cells with blanks between them, and perhaps a fault.

    A fault begins with a capital letter, and no line does.
    """
    lines = "".join("\t".join(one.split(" ")) + "\n" for one in wanted if not one[0].isupper())
    faults = [f"fisca: {one}" for one in wanted if one[0].isupper()]
    return text, Answer(lines, "".join(faults), 4 if faults else 0)


def columns(*names, given=GIVEN):
    """The text of a file of these columns."""
    return given + "columns:\n" + "".join(f"- {name}\n" for name in names)


def by_hand():
    """The variables and the cases of expressions."""
    variables, cases = [*FAILING, p("x_self", formula=own("x_self"))], []
    kinds = [
        ("x", p, "Ann", "float", BY_HAND), ("y", h, "home", "float", OF_HOUSEHOLDS), ("i", p, "Ann", "int", CASTS),
        ("t", p, "Ann", "bool", BOOLS),
    ]
    for letter, made, who, kind, table in kinds:
        for place, (expression, wanted) in enumerate(table):
            key = f"{letter}{place} {who} 2017-01"
            variables.append(made(f"{letter}{place}", kind, expression))
            is_fault = isinstance(wanted, str) and wanted[0].isupper()
            told = wanted.replace(" X", f" {key}") if is_fault else f"{key} {wanted}"
            cases.append(case(columns(f"{letter}{place}"), told))
    # a column behind one that has a value is not printed, nor one behind the fault
    cases.append(case(columns("one", "f1", "f2", "one"), "one Ann 2017-01 1", F1))
    firsts = ["one Ann 2017-01 1", "one Bob 2017-01 1", f"most Cid 2017-01 {MOST}"]
    cases.append(case(columns("one", "one#1", "most#2"), *firsts))
    # an input stands for a formula that would fail
    given = GIVEN.replace("      one: 1\n", "      one: 1\n      f1: 0.5\n")
    cases.append(case(columns("f1", "f1#1", given=given), "f1 Ann 2017-01 0.5", "f1 Bob 2017-01 0"))
    return variables, cases


# Chains of a hundred keys and of one more: through variables, months, years, days, persons and their household; each
# with its input, and without one.
CHAIN = [f"c{k}" for k in range(101)]
CHAIN_VARIABLES = [
    p("base"),
    *[p(name, formula=f"{own(below)} + 1") for name, below in zip(CHAIN, CHAIN[1:] + ["base"])],
    p("step", formula='e("step", p.last_month) + 1'),
    p("years", formula='e("years", p.last_year) + 1', period="YEAR"),
    p("days", formula='e("days", p.offset(-1)) + 1', period="DAY"),
    p("free", formula='where(e("free_stop", p), 1, e("free", p.last_month) + 1)'),
    p("free_stop", "bool"),
    p("down", formula='e.household("up", p.last_month)'),
    h("up", formula='e.sum(e.members("down", p), role=Household.CHILD) + 1'),
    p("drift", formula='e("drift", p.last_month)'),
    p("late", more='    end = "2000-01-31"\n', formula='e("late", p.last_month) + 1'),
]
STEP, BOTH = "{step: {2000-01: 0}}", (
    "{persons: {Ann: {}, Bob: {down: {2010-01: 0}}}, households: {home: {parents: [Ann], children: [Bob]}}}"
)
# each with its input, its columns and what is wanted
CHAIN_CASES = [
    # c1 to c99 and the base are a hundred keys, c0 asks for one more; the base counts, whether it is given or not
    *[
        one
        for given, base in (("{base: {2017-01: 5}}", 5), ("{}", 0))
        for one in [
            (given, "c1", "TooDeep c1 person 2017-01"),
            (given, "c2", f"c2 person 2017-01 {99 + base}"),
            (given, "c0", "TooDeep c0 person 2017-01"),
            (given, "c100", f"c100 person 2017-01 {1 + base}"),
        ]
    ],
    (STEP, "step@2008-04", "step person 2008-04 99"),
    (STEP, "step@2008-05", "TooDeep step person 2008-05"),
    ("{years: {1900: 0}}", "years@1999", "years person 1999 99"),
    ("{years: {1900: 0}}", "years@2000", "TooDeep years person 2000"),
    ("{days: {2016-01-01: 0}}", "days@2016-04-09", "days person 2016-04-09 99"),
    ("{days: {2016-01-01: 0}}", "days@2016-04-10", "TooDeep days person 2016-04-10"),
    (STEP, "[step@2008-04, step@2008-05, step@2008-04]", "step person 2008-04 99", "TooDeep step person 2008-05"),
    (STEP, "[step@2008-05, step@2008-04]", "TooDeep step person 2008-05"),
    # each evaluation begins anew: what a deeper column worked out is no help, and no harm
    (STEP, "[step@2008-04, step@2004-01, step@2000-01, step@2008-04]", "step person 2008-04 99",
     "step person 2004-01 48", "step person 2000-01 0", "step person 2008-04 99"),
    # an input in the middle cuts the chain
    ("{step: {2000-01: 0, 2004-01: 7}}", "step@2008-05", "step person 2008-05 59"),
    # past the end of a formula there is its default, in one key
    ("{}", "late@2000-02", "late person 2000-02 0"),
    ("{late: {1990-01: 3}}", "late@1998-04", "late person 1998-04 102"),
    ("{late: {1990-01: 3}}", "late@1998-05", "TooDeep late person 1998-05"),
    # the last key that stops by a condition: the condition's own key counts too, and is not below the others
    ("{free_stop: {2000-01: true}}", "free@2008-03", "free person 2008-03 99"),
    ("{free_stop: {2000-01: true}}", "free@2008-04", "TooDeep free person 2008-04"),
    # by a person's household and back
    (BOTH, "down#1@2014-02", "down Bob 2014-02 49"),
    (BOTH, "up@2014-02", "up home 2014-02 50"),
    (BOTH, "down#1@2014-03", "TooDeep down Bob 2014-03"),
    # the beginning of time
    ("{}", "drift@2017-01", "TooDeep drift person 2017-01"),
    ("{}", "drift@0005-01", "PeriodOutOfRange drift person 0001-01"),
    ("{}", "drift@0009-04", "PeriodOutOfRange drift person 0001-01"),
    ("{}", "drift@0009-05", "TooDeep drift person 0009-05"),
    ("{drift: {0001-01: 4}}", "drift@0009-04", "drift person 0009-04 4"),
]

# Keys that need themselves: alone, through other variables, periods that come back, persons and groups; and a tail
# before the cycle.
CYCLE_VARIABLES = [
    p("loop", formula=own("loop")),
    p("alone", formula='where(e("stop", p), 1, e("alone", p) + 1)'),
    p("stop", "bool"),
    p("a", formula=own("b")),
    p("b", formula=own("c")),
    p("c", formula=own("a")),
    p("tail", formula=own("tail2")),
    p("tail2", formula=own("b")),
    p("back", formula='e("forth", p.last_month)'),
    p("forth", formula='e("back", p.offset(1))'),
    p("chase", formula='e.household("pack", p)'),
    h("pack", formula='e.sum(e.members("chase", p))'),
    h("self_sum", formula='e.sum(e.members("up", p))'),
    p("up", formula='e.household("self_sum", p)'),
    p("by_year", formula='e("of_year", p, options=[DIVIDE])'),
    p("of_year", formula='e("by_year", p, options=[ADD])', period="YEAR"),
    p("long0", formula=own("long1")),
    *[p(f"long{k}", formula=own(f"long{k % 98 + 1}")) for k in range(1, 99)],
    *[p(f"wide{k}", formula=own(f"wide{(k + 1) % 101}")) for k in range(101)],
    *[p(f"just{k}", formula=own(f"just{(k + 1) % 100}")) for k in range(100)],
    p("fails_first", formula='1 / e("none", p) + e("fails_first", p)'),
    p("none"),
    p("fails_last", formula='e("fails_last", p) + 1 / e("none", p)'),
    p("twice", formula='e("twice", p) + e("twice", p)'),
]
PAIR = "{persons: {Ann: {}, Bob: {}}, households: {home: {parents: [Ann, Bob]}}}"
CYCLE_CASES = [
    ("{}", "loop", "Cycle loop person 2017-01"),
    ("{loop: 3}", "loop", "loop person 2017-01 3"),
    ("{}", "alone", "Cycle alone person 2017-01"),
    ("{stop: true}", "alone", "alone person 2017-01 1"),
    ("{}", "a", "Cycle a person 2017-01"),
    ("{}", "b", "Cycle b person 2017-01"),
    ("{}", "c", "Cycle c person 2017-01"),
    ("{}", "tail", "Cycle b person 2017-01"),
    ("{}", "tail2", "Cycle b person 2017-01"),
    ("{c: 9}", "tail", "tail person 2017-01 9"),
    ("{}", "back", "Cycle back person 2017-01"),
    ("{}", "forth", "Cycle forth person 2017-01"),
    ("{back: {2017-02: 4}}", "forth", "forth person 2017-01 4"),
    (PAIR, "chase#1", "Cycle pack home 2017-01"),
    (PAIR, "chase", "Cycle chase Ann 2017-01"),
    (PAIR, "pack", "Cycle pack home 2017-01"),
    (PAIR, "self_sum", "Cycle self_sum home 2017-01"),
    (PAIR, "up#1", "Cycle self_sum home 2017-01"),
    ("{}", "by_year", "Cycle by_year person 2017-01"),
    ("{}", "by_year@2017-02", "Cycle of_year person 2017"),
    ("{}", "of_year@2017", "Cycle of_year person 2017"),
    ("{}", "long0", "Cycle long1 person 2017-01"),
    # a cycle of a hundred keys shows in the hundred-and-first, one of a hundred and one does not
    ("{}", "just0", "Cycle just0 person 2017-01"),
    ("{}", "just57", "Cycle just57 person 2017-01"),
    ("{}", "wide0", "TooDeep wide0 person 2017-01"),
    ("{}", "wide57", "TooDeep wide57 person 2017-01"),
    ("{}", "fails_first", "ZeroDivisor fails_first person 2017-01"),
    ("{}", "fails_last", "Cycle fails_last person 2017-01"),
    ("{}", "twice", "Cycle twice person 2017-01"),
]


def given_cases(table):
    """The cases of a table of inputs, columns and what is wanted."""
    return [case(f"period: 2017-01\ninput: {given}\ncolumns: {names}\n", *wanted) for given, names, *wanted in table]


def try_cases(fuzz, name, variables, cases):
    """Works out the columns of files, each with what is to be answered to it, over a rule set of these variables."""
    common.put(fuzz.room / "rules", rule_set(variables))
    path = fuzz.room / "calc.yaml"
    for text, wanted in cases:
        path.write_text(text)
        fuzz.same(fuzz.call("calc", fuzz.room / "rules", path), wanted, f"{name}: {text}")
    fuzz.note(f"{name}: {len(cases)} files, {sum(wanted.status != 0 for _text, wanted in cases)} with a fault")


def try_stored(fuzz):
    """Works out the files of `calc` that stand in rule sets of the repository beside what they are answered by."""
    for folder in common.rule_folders():
        for path in sorted(folder.glob("calc.yaml")):
            wanted = Answer(path.with_suffix(".stdout").read_text(), "", 0)
            fuzz.same(fuzz.call("calc", folder, path), wanted, path)


def run(fuzz):
    """Works out all files."""
    try_stored(fuzz)
    try_cases(fuzz, "by hand", *by_hand())
    try_cases(fuzz, "chains", CHAIN_VARIABLES, given_cases(CHAIN_CASES))
    try_cases(fuzz, "cycles", CYCLE_VARIABLES, given_cases(CYCLE_CASES))
