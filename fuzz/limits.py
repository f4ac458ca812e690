"""Files at a limit and just beyond it: what the program has to answer to each stands here; and a file of tests whose
report is 270 MB, which has to be written in 200 MiB of memory.
"""
import resource
import subprocess

import common
import growths

COUNT = 0
VARIABLE = """

class {}(Variable):
    value_type = float
    entity = {}
    definition_period = MONTH

    def formula({}, period):
        return {}
"""
MADE = [
    ("drift", "Person", "person", 'person("drift", period.last_month)'),
    ("chase", "Person", "person", 'person.household("pack", period)'),
    ("pack", "Household", "household", 'household.sum(household.members("chase", period))'),
]
PAIR = "input: {persons: {Ann: {}, Bob: {}}, households: {home: {parents: [Ann, Bob]}}}\n"

# a fault of a household, which each of its persons asks for
ASKED = {
    "entities.py": """\
Household = build_entity(key="household", plural="households", roles=[{"key": "member", "plural": "members"}])
Person = build_entity(key="person", plural="persons", is_person=True)
""",
    "variables/all.py": VARIABLE.format("none", "Household", "household", "0")
    + VARIABLE.format("share", "Household", "household", '1 / household("none", period)')
    + VARIABLE.format("asks", "Person", "person", 'person.household("share", period)'),
}
# the bytes that the program may take for 1 MiB of tests
TESTS_MEMORY = 200 << 20


def persons(count, inputs="{}"):
    """The input of so many persons."""
    return "input: {persons: {" + ", ".join(f"p{place}: {inputs}" for place in range(count)) + "}}\n"


def calc_cases():
    """Files of `fisca calc` with the line of standard error that is wanted, without its beginning, or none."""
    ages = "{age: {year:2000:1200: 30}}"
    one, asked = persons(1), "period: 2017-01\ncolumns: [age]\n"
    long = asked + one + "#"
    long += "x" * (common.MOST_BYTES - len(long))
    return [
        ("1,000 persons", asked + persons(1000), None),
        ("1,001 persons", asked + persons(1001), "file.yaml:3: TooMany"),
        ("86,400 inputs", asked + persons(6, ages), None),
        ("100,800 inputs", asked + persons(7, ages), "file.yaml:3: TooMany"),
        ("1 MiB", long, None),
        ("1 MiB and one byte", long + "x", "file.yaml:1: TooLong"),
        ("200,000 columns", "period: 2017-01\n" + one + f"columns: [{'age,' * 200000}]\n", None),
        ("a chain of keys", "period: 2017-01\ncolumns: [drift]\ninput: {}\n", "TooDeep drift person 2017-01"),
        ("a chain to year 1", "period: 0005-01\ncolumns: drift\ninput: {}\n", "PeriodOutOfRange drift person 0001-01"),
        ("a cycle", "period: 2017-01\ncolumns: [chase#1]\n" + PAIR, "Cycle pack home 2017-01"),
    ]


def try_calc(fuzz):
    """Tries the files of columns."""
    files, path = growths.household(), fuzz.room / "file.yaml"
    for made in MADE:
        files = growths.changed(files, "variables/a.py", VARIABLE.format(*made))
    common.put(fuzz.room / "rules", files)
    for name, text, wanted in calc_cases():
        path.write_bytes(text.encode())
        answer = fuzz.call("calc", fuzz.room / "rules", path)
        told = None if wanted is None else "fisca: " + wanted.replace("file.yaml", str(path))
        status = 0 if told is None else 3 if wanted.startswith("file.yaml") else 4
        made = (answer.err or None, answer.status, bool(answer.out))
        fuzz.same(made, (told, status, status == 0), name)


def try_check(fuzz):
    """Tries rule sets."""
    files, long = growths.household(), "description: ".ljust(common.MOST_BYTES, "x")
    line = len((files["variables/a.py"] + VARIABLE).splitlines())
    number = ("wide", "Person", "person", "9223372036854775808")
    cases = [
        ("a number too wide", "variables/a.py", VARIABLE.format(*number), f"variables/a.py:{line}: Unsupported"),
        ("1 MiB of a description", "parameters/more/index.yaml", long, None),
        ("1 MiB and one byte", "parameters/more/index.yaml", long + "x", "parameters/more/index.yaml:1: TooLong"),
        ("a list of 200,000", "parameters/more/index.yaml", f"metadata: {{order: [{'a,' * 200000}]}}\n", None),
    ]
    for name, path, text, wanted in cases:
        common.put(fuzz.room / "rules", growths.changed(files, path, text))
        told = ("", "fisca: " + wanted, 3) if wanted else ("entities 2, variables 22, parameters 4\n", "", 0)
        fuzz.same(tuple(fuzz.call("check", fuzz.room / "rules")), told, name)


def limit_tests():
    """Limits the memory of a program that works tests out."""
    resource.setrlimit(resource.RLIMIT_AS, (TESTS_MEMORY,) * 2)


def try_long_report(fuzz):
    """A test of 300 persons that fail, each by a line with the name of their household, which is 900 kB long."""
    rules, path = fuzz.room / "asked", fuzz.room / "tests.yaml"
    names, home = [f"p{place}" for place in range(300)], "h" * 900_000
    common.put(rules, ASKED)
    given = "persons: {" + ", ".join(f"{name}: {{}}" for name in names) + "}"
    homes = f"households: {{{home}: {{members: [{', '.join(names)}]}}}}"
    path.write_text(f"period: 2017-01\ninput: {{{given}, {homes}}}\noutput: {{asks: 1}}\n")
    lines = [f"  asks {name} 2017-01: ZeroDivisor share {home} 2017-01\n" for name in names]
    wanted = ["failed test 1\n", *lines, "passed 0, failed 1\n"]
    command = [fuzz.program("fisca"), "test", rules, path]
    with subprocess.Popen(command, stdout=subprocess.PIPE, preexec_fn=limit_tests) as ran:
        right = sum(line.decode() == it for line, it in zip(ran.stdout, wanted))
    is_whole = right == len(wanted) and ran.returncode == 1
    fuzz.check(is_whole, f"a report of 270 MB: {right} lines, status {ran.returncode}")


def run(fuzz):
    """Tries all."""
    try_check(fuzz)
    try_calc(fuzz)
    try_long_report(fuzz)
