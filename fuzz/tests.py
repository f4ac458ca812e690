"""Files of `fisca test` drawn by lot over tests/rules/household.

What each has to report is worked out here: the value of each output is asked of `fisca calc` over the same input, and
compared within the margins by Python's fractions. Some files have one or two wrong things at known lines: the first of
them has to be told. Then come files at the limits, and each prefix of the file of tests of tests/rules/household has to
be answered by a report, or by a refusal with the file's path, a line of it and a word.
"""
import re

import common
from broken_tests import MARK, broken, unmarked
from common import Answer
from drawn_tests import RULES, drawn_test, report

COUNT = 100
WORDS = common.YAML_FAULTS | common.INPUT_FAULTS | {"BadTest", "BadOutput", "UseReform"}


def item_lines(lot, test):
    """The lines of a test as an item of a list."""
    lines = [line for section in test.sections.values() for line in section]
    if not lines:
        return [f"- {MARK}{{}}"]
    if lot.random() < 0.15:
        return ["-", *(f"  {line}" if line else line for line in lines)]
    return ["- " + lines[0], *(f"  {line}" if line else line for line in lines[1:])]


def file_lines(lot, tests, is_list=False):
    """The lines of a file of tests; one test may stand in it without a list."""
    if len(tests) == 1 and lot.random() < 0.3 and tests[0].sections and not is_list:
        return [line for section in tests[0].sections.values() for line in section]
    lines = lot.choice([[], [], ["# tests"], ["---"], ["--- # tests", ""]])
    for test in tests:
        lines = lines + item_lines(lot, test)
        lines = lines + lot.choice([[], [], [""], ["# a comment"], ["      # deep", ""]])
    return lines


# lines that no list of tests may have
WRONG_LINES = [
    ("BadTest", "- scalar"), ("BadTest", "-"), ("BadTest", "- []"), ("BadTest", "- [output]"),
    ("BadTest", "- - output: {}"), ("BadFlow", "- {output}"), ("BadTest", "- ~"), ("Tab", "\tx: 1"),
    ("BadFlow", "- {output: {}"), ("BadQuote", '- name: "x'), ("Unsupported", "output"), ("TooDeep", "- " + "[" * 16),
    ("Unsupported", "- name: &a x"), ("Unsupported", "---"), ("DuplicateKey", "- {output: {}, output: {}}"),
]


def drawn_file(fuzz):
    """A file, and what it is to be answered by."""
    lot = fuzz.lot
    tests = [drawn_test(fuzz) for _test in range(lot.choice([0, 1, 1, 2, 3, 4]))]
    how = lot.random()
    if how < 0.55 or (not tests and how < 0.85):
        answer = report(tests)
        return "\n".join(file_lines(lot, tests) if tests else ["[]"]) + "\n", answer
    if how < 0.85:
        place = lot.randrange(len(tests))
        word = broken(lot, tests[place])
        for other in tests[place + 1:]:
            if lot.random() < 0.5:
                broken(lot, other)
                unmarked(other)
        lines = file_lines(lot, tests)
    else:
        lines = file_lines(lot, tests, is_list=True) if tests else ["- output: {}"]
        word, line = lot.choice(WRONG_LINES)
        lines = [*lines, MARK + line]
    number = next(place for place, line in enumerate(lines, 1) if MARK in line)
    return "\n".join(line.replace(MARK, "") for line in lines) + "\n", refusal(fuzz, number, word)


def refusal(fuzz, line, word):
    """The answer that refuses the file of tests at a line."""
    return Answer("", f"fisca: {fuzz.room / 'tests.yaml'}:{line}: {word}", 3)


# variables that have one value for all time, and such as no output may name
ETERNAL = {
    "entities.py": 'Person = build_entity(key="person", plural="persons", is_person=True)\n',
    "variables/all.py": """\
class born(Variable):
    value_type = int
    entity = Person
    definition_period = ETERNITY


class birthday(Variable):
    value_type = date
    entity = Person
    definition_period = ETERNITY
    default_value = date(1970, 1, 1)


class letter(Variable):
    value_type = str
    entity = Person
    definition_period = MONTH


class present(Variable):
    value_type = bool
    entity = Person
    definition_period = DAY
    set_input = set_input_dispatch_by_period
""",
}
# as many kinds of groups as a file holds
KINDS = {
    "entities.py": 'Person = build_entity(key="person", plural="persons", is_person=True)\n' + "".join(
        f"E{k} = build_entity(key='e{k}', plural='f{k}', roles=[{{'key': 'r'}}])\n" for k in range(14400)
    ),
    "variables/a.py": "class a(Variable):\n    value_type = int\n    entity = Person\n    definition_period = MONTH\n",
}
FINE = Answer("ok test 1\npassed 1, failed 0\n", "", 0)
TOO_DEEP = "step person 2008-05: TooDeep step person 2008-05"


def failed(*lines):
    """The report on one test that fails by these lines."""
    return Answer("failed test 1\n" + "".join(f"  {line}\n" for line in lines) + "passed 0, failed 1\n", "", 1)


def fixed_files(bad):
    """Files over tests/rules/household, each with what it is to be answered by; `bad` makes a refusal."""
    thousand = "".join(f"ok test {k + 1}\n" for k in range(1000)) + "passed 1000, failed 0\n"
    return [
        ("", bad(1, "BadTest")),
        ("# nothing\n\n", bad(1, "BadTest")),
        ("~\n", bad(1, "BadTest")),
        ("\n\ntests\n", bad(3, "BadTest")),
        ("[]\n", Answer("passed 0, failed 0\n", "", 0)),
        ("output: {}\n", FINE),
        ("output: {persons: {}, households: {person: {rent: {}}}}\n", FINE),
        ("name:\n", bad(1, "BadTest")),
        ("\nname: x\n", bad(2, "BadTest")),
        ("-\n-\n", bad(1, "BadTest")),
        ("- output: {}\n-\n", bad(2, "BadTest")),
        ("- output: {}\n" * 1000, Answer(thousand, "", 0)),
        ("- output: {}\n# " + "x" * common.MOST_BYTES + "\n", bad(1, "TooLong")),
        (f"{{period: 2017-01, input: {{salary: {common.MOST}}}, output: {{salary: -1}}}}\n",
         failed("salary person 2017-01: TooWide")),
        ("{input: {step: {2000-01: 0}}, output: {step: {2008-04: 99, 2008-05: 100}}}\n", failed(TOO_DEEP)),
        ("{input: {step: {2000-01: 0}}, output: {step: {2008-05: 100, 2008-04: 99}}}\n", failed(TOO_DEEP)),
    ]


def large_files(bad):
    """Files over tests/rules/household at the limits of persons and of periods."""
    many = "".join(f"p{k}: {{}}, " for k in range(1000))
    months = ", ".join(f"{year:04}-{month:02}: 0" for year in range(1, 2001) for month in (1, 12))
    return [
        (f"- input: {{persons: {{{many}}}}}\n  output: {{age: {{2017-01: 0}}}}\n", FINE),
        (f"- input:\n    persons: {{{many} q: {{}}}}\n  output: {{age: {{2017-01: 0}}}}\n", bad(2, "TooMany")),
        (f"output: {{salary: {{{months}}}}}\n", FINE),
    ]


def eternal_files(bad):
    """Files over the rule set ETERNAL."""
    first, present = "input: {birthday: 1970-01-02}", "input: {present: {2017-02: on}}"
    return [
        ("{input: {born: 1980}, output: {born: 1980}}\n", FINE),
        ("{input: {born: 1980}, output: {born: 1981.5}}\n", failed("born person ETERNITY: expected 1981.5, got 1980")),
        ("{period: 2017, input: {born: {2016-01-01: 1980}}, output: {born: {2017-01: 1, ETERNITY: 1980}}}\n",
         failed("born person ETERNITY: expected 1, got 1980")),
        ("{output: {born: {soon: 1980}}}\n", bad(1, "BadOutput")),
        (f"{first}\noutput:\n  birthday: 1970-01-02\n", bad(3, "BadOutput")),
        ("input: {letter: {2017-01: x}}\noutput:\n  persons:\n    person:\n      letter: {2017-01: x}\n",
         bad(5, "BadOutput")),
        (f"{present}\noutput: {{present: {{2017-02-28: yes, 2017-3-1: yes}}}}\n",
         failed("present person 2017-03-01: expected true, got false")),
        (f"{present}\noutput:\n  present: {{2017-02: yes}}\n", bad(3, "BadOutput")),
    ]


def stored_files():
    """The files of tests that stand in rule sets of the repository beside what they are answered by."""
    for folder in common.rule_folders():
        if (folder / "tests.stdout").is_file():
            told = (folder / "tests.stdout").read_text()
            status = int(not told.endswith("failed 0\n"))
            yield folder, (folder / "tests.yaml").read_text(), Answer(told, "", status)


def try_file(fuzz, rules, text, wanted):
    """Runs the tests of a file."""
    path = fuzz.room / "tests.yaml"
    path.write_bytes(text.encode())
    fuzz.same(fuzz.call("test", rules, path), wanted, text)


def try_fixed(fuzz):
    """Runs the files that are not drawn."""
    def bad(line, word):
        return refusal(fuzz, line, word)

    common.put(fuzz.room / "eternal", ETERNAL)
    for text, wanted in fixed_files(bad) + large_files(bad):
        try_file(fuzz, RULES, text, wanted)
    for text, wanted in eternal_files(bad):
        try_file(fuzz, fuzz.room / "eternal", text, wanted)
    common.put(fuzz.room / "kinds", KINDS)
    persons = ", ".join(f"p{k}: {{}}" for k in range(1000))
    for given in ("", ", f7: {g: {r: [p0, p1]}}"):
        try_file(fuzz, fuzz.room / "kinds", f"{{input: {{persons: {{{persons}}}{given}}}, output: {{a: {{2017-01: 0}}}}}}\n", FINE)
    for folder, text, wanted in stored_files():
        try_file(fuzz, folder, text, wanted)
    (fuzz.room / "bytes.yaml").write_bytes(b"- name: \xff\n  output: {}\n")
    for path in (fuzz.room / "bytes.yaml", fuzz.room / "absent.yaml"):
        fuzz.same(fuzz.call("test", RULES, path), Answer("", f"fisca: {path}: cannot read", 5), path.name)


def try_prefixes(fuzz):
    """Runs each beginning of the file of tests of tests/rules/household."""
    path, whole = fuzz.room / "tests.yaml", (RULES / "tests.yaml").read_text()
    for length in range(len(whole) + 1):
        text = whole[:length]
        path.write_bytes(text.encode())
        out, err, status = fuzz.call("test", RULES, path)
        if status == 3:
            told = re.fullmatch(rf"fisca: {re.escape(str(path))}:(\d+): (\w+)", err)
            is_right = out == "" and told is not None and common.is_line_of(told[1], text) and told[2] in WORDS
        else:
            counts = re.search(r"(?:^|\n)passed (\d+), failed (\d+)\n\Z", out)
            is_right = err == "" and counts is not None and status == int(int(counts[2]) > 0)
        fuzz.check(is_right, f"a prefix of {length} characters: {out}{err}, status {status}")
    fuzz.note(f"{len(whole) + 1} prefixes")


def run(fuzz):
    """Runs the tests of all files."""
    reports = refused = wrong = 0
    for _file in range(fuzz.count):
        text, wanted = drawn_file(fuzz)
        reports, refused = reports + (wanted.status != 3), refused + (wanted.status == 3)
        wrong += len(re.findall("^  ", wanted.out, re.MULTILINE))
        try_file(fuzz, RULES, text, wanted)
    fuzz.note(f"{fuzz.count} files: {reports} reports with {wrong} outputs that failed, {refused} refused")
    try_fixed(fuzz)
    try_prefixes(fuzz)
