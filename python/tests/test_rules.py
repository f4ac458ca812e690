"""check, list, calc and test: what they give, over the repository's rules and small ones."""
import datetime
from decimal import Decimal
from fractions import Fraction

import pytest
from conftest import ENTITIES, TOP

import fisca

FAMILY = TOP / "examples" / "housing" / "family.yaml"
SCALE = "parameters/housing_benefit/income_reduction.yaml"
STORED = sorted(TOP.glob("examples/*/*.stdout")) + sorted(TOP.glob("tests/rules/*/*.stdout"))


def texts(values):
    """Values as the program writes them."""
    return [str(it).lower() if isinstance(it, bool) else it if isinstance(it, str) else decimal(it) for it in values]


def decimal(number):
    """A number as the program writes it."""
    below = number.denominator
    for factor in (2, 5):
        while below % factor == 0:
            below //= factor
    return str(number) if below > 1 else format(Decimal(number.numerator) / number.denominator, "f")


TEXTS = ["0", "7", "-7", "0.5", "-0.5", "12.25", "1/3", "-22/7", "-0.000000000000000001", "9223372036854775807"]


@pytest.mark.parametrize("text", TEXTS)
def test_numbers_are_read(text):
    found = fisca._values.value_of(text)
    assert (found, type(found)) == (Fraction(text), Fraction)


def test_other_values_are_read():
    assert [fisca._values.value_of(it) for it in ("true", "false", "tenant", "_1")] == [True, False, "tenant", "_1"]


def test_check(housing, small):
    assert housing.check() == (2, 12, 11)
    assert small.check() == fisca.Counts(entities=1, variables=4, parameters=0)


def test_list(housing, small):
    choice, _, share, _ = small.list()
    assert choice == fisca.Variable("choice", "person", "Choice", "month", (), "", "", "variables/a.py", 6)
    assert (share.name, share.formulas, share.path, share.line) == ("share", (datetime.date.min,), "variables/a.py", 20)
    assert len(housing.list()) == housing.check().variables
    first = housing.list()[0]
    assert (first.name, first.entity, first.formulas) == ("housing_benefit", "household", (datetime.date(2024, 1, 1),))
    assert (first.unit, first.label) == ("currency", "Housing benefit of the month")


LISTED = """\


class b(Variable):
    value_type = int
    entity = Person
    definition_period = YEAR
    unit = "1"
    label = "a\tb: \u202ec"

    def formula_2025_02_03(person, period):
        return 1

    def formula(person, period):
        return 2
"""


def test_list_of_texts_that_look_otherwise(small, tmp_path):
    module = tmp_path / "small" / "variables" / "a: 1" / "b.py"
    module.parent.mkdir()
    module.write_text(LISTED, encoding="utf-8")
    days = datetime.date(2025, 2, 3), datetime.date.min
    found = [it for it in small.list() if it.name == "b"]
    assert found == [("b", "person", "int", "year", days, "1", "a\\x09b: \\u{202e}c", "variables/a: 1/b.py", 3)]


def test_list_without_variables(tmp_path):
    (tmp_path / "entities.py").write_text(ENTITIES)
    assert fisca.Rules(tmp_path).list() == []


def test_explain(housing):
    column, income, allowance, scale = housing.explain(FAMILY, ["income_reduction"], depth=1)
    assert (column.depth, column.kind, column.value, column.source, column.line) == (0, "key", 240, "formula", 43)
    assert (income.depth, income.name, income.member, income.value) == (1, "household_income", "home", 2900)
    assert (income.unit, income.label) == ("currency", "Salaries of all members of the household")
    assert (allowance.kind, allowance.period, allowance.since) == ("parameter", "2025-03-01", "2025-01-01")
    assert (scale.kind, scale.base, scale.value, scale.file) == ("scale", 900, 240, SCALE)
    assert [it.value for it in housing.explain(FAMILY) if it.depth == 0] == [it.value for it in housing.calc(FAMILY)]


def test_explain_up_to_a_fault(small):
    said = {"period": "2025-01", "columns": ["share"], "input": {"persons": {"Ann": {"salary": 0}}}}
    column, below = small.explain(said)
    assert (column.value, column.fault, below.value, below.source) == (None, "ZeroDivisor", 0, "given")
    with pytest.raises(fisca.Refused):
        small.explain({}, ["none"])
    with pytest.raises(ValueError):
        small.explain({}, depth=-1)


@pytest.mark.parametrize("stored", [it for it in STORED if it.stem in ("family", "calc")], ids=str)
def test_calc_gives_the_stored_lines(stored):
    found = fisca.Rules(stored.parent).calc(stored.with_suffix(".yaml"))
    lines = ["\t".join([it.variable, it.member, it.period, *texts([it.value])]) for it in found]
    assert lines == stored.read_text().splitlines()


@pytest.mark.parametrize("stored", [it for it in STORED if it.stem in ("grid", "run")], ids=str)
def test_run_gives_the_stored_lines(stored):
    run = fisca.Rules(stored.parent).run(stored.with_suffix(".yaml"))
    lines = ["\t".join([str(it.position), *texts(it.axes), *texts(it.columns)]) for it in run]
    assert [*lines, "end"] == stored.read_text().splitlines()
    assert run.more is None


@pytest.mark.parametrize("stored", [it for it in STORED if it.stem == "tests"], ids=str)
def test_test_gives_the_stored_lines(stored):
    found = fisca.Rules(stored.parent).test(stored.with_suffix(".yaml"))
    lines = []
    for it in found:
        lines += [f"{'ok' if it.passed else 'failed'} {it.name}", *(f"  {detail}" for detail in it.details)]
    passed = sum(it.passed for it in found)
    assert [*lines, f"passed {passed}, failed {len(found) - passed}"] == stored.read_text().splitlines()


def test_calc_of_a_dict(small):
    said = {
        "period": "2017-01",
        "input": {"persons": {"Ann": {"salary": 3, "choice": "two"}, "Bob": {"salary": Decimal("0.10")}}},
        "columns": ["share", "is_high", "choice", "share#1", "salary#1", "choice#1"],
    }
    found = small.calc(said)
    assert found[0] == fisca.Amount("share", "Ann", "2017-01", Fraction(1, 3))
    assert [it.value for it in found] == [Fraction(1, 3), True, "two", 10, Fraction(1, 10), "one"]
    assert [type(it.value) for it in found[:3]] == [Fraction, bool, str]
    assert {it.member for it in found} == {"Ann", "Bob"}


def test_calc_of_one_column_and_of_none(small):
    assert small.calc({"period": "2017-01", "columns": "salary"}) == [("salary", "person", "2017-01", 0)]
    assert small.calc({}) == []


@pytest.mark.parametrize("number", [1e-7, Fraction(1, 8), Decimal("1E+3"), 12345678901234, -0.1, 7])
def test_numbers_are_handed_over_exactly(small, number):
    said = {"period": "2017-01", "input": {"salary": number}, "columns": "salary"}
    wanted = Fraction(repr(number)) if isinstance(number, float) else Fraction(number)
    assert small.calc(said)[0].value == wanted


@pytest.mark.parametrize("number", [Fraction(1, 3), float("nan"), float("inf"), Decimal("NaN")])
def test_numbers_without_a_decimal_are_refused(small, number):
    with pytest.raises(ValueError):
        small.calc({"input": {"salary": number}})


@pytest.mark.parametrize("data", [{1, 2}, b"text", 1j, object()])
def test_other_data_is_refused(small, data):
    with pytest.raises(TypeError):
        small.calc({"input": {"salary": data}})
    with pytest.raises(TypeError):
        small.calc({"input": {(1, 2): 3}})


NAMES = ["Zoë", "a b", 'a "b"', "a\\b", "a: b # c", "\U0001f600", "\b\f\x00\x7f", "a\tb", "\r\u2028\x85", ""]


@pytest.mark.parametrize("name", NAMES)
def test_names_of_members_come_back(small, name):
    said = {"period": "2017-01", "input": {"persons": {name: {"salary": 1}}}, "columns": ["share", "salary"]}
    if not name:
        with pytest.raises(fisca.Refused):
            small.calc(said)
        return
    assert [it.member for it in small.calc(said)] == [name, name]


def test_a_name_with_a_line_break_is_never_read_wrongly(small):
    name = "a\t2017-01\t1\nsalary\tb"
    said = {"period": "2017-01", "input": {"persons": {name: {"salary": 1}}}, "columns": ["salary"]}
    assert small.calc(said) == [("salary", name, "2017-01", 1)]


def test_calc_with_decimals(small):
    said = {"period": "2017-01", "input": {"salary": 3}, "columns": ["share", "salary", "is_high", "choice"]}
    values = [it.value for it in small.calc(said, decimals=2)]
    assert values == [Decimal("0.33"), Decimal("3.00"), True, "one"]
    assert [str(it) for it in values[:2]] == ["0.33", "3.00"]
    assert {type(it) for it in values[:2]} == {Decimal}


def test_size(housing):
    assert housing.size(housing.folder + "/grid.yaml") == 28
    axes = [[{"name": name, "count": 65536, "min": 0, "max": 1}] for name in ("rent", "salary")]
    assert housing.size({"period": "2025-03", "axes": axes}) == 2**32


def test_keys_may_be_years_and_days(housing):
    said = {"input": {"savings": {2025: 20000}, "rent": {"2025-03": 500}}, "columns": "passes_means_test@2025-03"}
    assert housing.calc(said)[0].value is True
    with pytest.raises(fisca.Refused):
        housing.calc({"input": {"savings": {datetime.date(2025, 1, 1): 1}}})


def test_test_of_a_list(small):
    found = small.test(
        [
            {"name": "right", "period": "2017-01", "input": {"salary": 4}, "output": {"share": 0.25}},
            {"period": "2017-01", "input": {"salary": 4}, "output": {"share": 0.5, "is_high": False}},
            {"name": "none", "period": "2017-01", "output": {"share": 1}},
        ]
    )
    assert [(it.name, it.passed) for it in found] == [("right", True), ("test 2", False), ("none", False)]
    assert found[0].details == ()
    assert found[1].details == (
        "share person 2017-01: expected 0.5, got 0.25",
        "is_high person 2017-01: expected false, got true",
    )
    assert found[2].details == ("share person 2017-01: ZeroDivisor share person 2017-01",)
    assert small.test([]) == []


def test_names_of_tests_with_line_breaks(small):
    test = {"period": "2017-01", "output": {"salary": 0}}
    assert [it.name for it in small.test([{**test, "name": "a\nb"}, test])] == ["a\nb", "test 2"]
    with pytest.raises(ValueError):
        small.test([{**test, "name": "a\nok b"}])


def test_tests_of_several_files_and_folders(small, tmp_path):
    (tmp_path / "deep").mkdir()
    first, second, other = tmp_path / "b.yaml", tmp_path / "deep" / "a.yml", tmp_path / "a.txt"
    first.write_text("- {name: one, period: 2017-01, output: {salary: 0}}\n- {name: two, period: 2017-01, output: {salary: 1}}\n")
    second.write_text("name: three\nperiod: 2017-01\noutput:\n  salary: 0\n")
    other.write_text("no tests")
    for found in (small.test(tmp_path), small.test(first, second)):
        assert [(it.name, it.passed, it.path) for it in found] == [
            ("one", True, str(first)),
            ("two", False, str(first)),
            ("three", True, str(second)),
        ]
    assert [it.path for it in small.test(first)] == [None, None]
    assert small.test(tmp_path / "deep", name="t") == [("three", True, (), str(second))]


def test_tests_by_name(small):
    tests = [{"name": name, "period": "2017-01", "output": {"salary": 0}} for name in ("one", "two", "one more")]
    unread = {"name": "other", "input": "none"}
    assert [it.name for it in small.test([*tests, unread], name="one")] == ["one", "one more"]
    assert small.test(tests, name="None") == []
    assert [it.name for it in small.test(tests, name="")] == ["one", "two", "one more"]


def test_a_folder_that_looks_like_an_option(small, tmp_path, monkeypatch):
    monkeypatch.chdir(tmp_path)
    (tmp_path / "small").rename(tmp_path / "--help")
    assert fisca.Rules("--help").check().variables == 4


def test_the_program_is_found(small, tmp_path, monkeypatch):
    own = fisca.Rules(small.folder)
    named = tmp_path / "bin" / "fisca"
    named.parent.mkdir()
    named.write_text("#!/bin/sh\necho entities 7, variables 8, parameters 9\n")
    named.chmod(0o755)
    monkeypatch.setenv("FISCA", str(named))
    assert own.check().entities == 7
    monkeypatch.delenv("FISCA")
    monkeypatch.setenv("PATH", f"{named.parent}:/usr/bin:/bin")
    assert own.check().entities == 7
    monkeypatch.setenv("PATH", str(tmp_path / "nowhere"))
    monkeypatch.setattr("fisca._program.CHECKOUT", tmp_path)
    with pytest.raises(FileNotFoundError):
        own.check()
    (tmp_path / "crates.txt").touch()
    assert own.check().parameters == 9


def test_reforms_are_laid_over_the_rules(tmp_path):
    (tmp_path / "entities.py").write_text("Person = build_entity(key='person', plural='persons', is_person=True)\n")
    (tmp_path / "variables").mkdir()
    (tmp_path / "parameters").mkdir()
    (tmp_path / "parameters" / "rate.yaml").write_text("values: {2017-01-01: 0.1}\n")
    lines = ["class tax(Variable):", "    value_type = float", "    entity = Person", "    definition_period = MONTH"]
    lines += ["    def formula(person, period, parameters):", "        return parameters(period).rate * 10"]
    (tmp_path / "variables" / "tax.py").write_text("\n".join([*lines, ""]))
    for name, rate in (("one", 0.2), ("two", 0.3)):
        (tmp_path / name / "parameters").mkdir(parents=True)
        (tmp_path / name / "parameters" / "rate.yaml").write_text(f"values: {{2017-01-01: {rate}}}\n")
    said = {"period": "2017-01", "input": {"persons": {"Ann": {}}}, "columns": "tax"}
    found = [fisca.Rules(tmp_path, reforms=it).calc(said)[0].value for it in ([], [tmp_path / "one"], tmp_path / "two")]
    assert found == [1, 2, 3]
    both = fisca.Rules(tmp_path, reforms=[tmp_path / "one", str(tmp_path / "two")])
    assert both.calc(said)[0].value == 3
    assert repr(both) == f"Rules({str(tmp_path)!r}, reforms=[{str(tmp_path / 'one')!r}, {str(tmp_path / 'two')!r}])"
    assert [it.amounts[0].value for it in both.calc_lines([said, said])] == [3, 3]
    axes = [[{"name": "tax", "count": 2, "min": 0, "max": 1}]]
    grid = {"period": "2017-01", "input": {"persons": {"Ann": {}}}, "axes": axes, "columns": "tax"}
    assert (both.size(grid), len(list(both.run(grid, workers=2)))) == (2, 2)


def test_messages_name_the_folder_of_a_reform(tmp_path):
    for name in ("rules", "reform"):
        (tmp_path / name).mkdir()
    (tmp_path / "rules" / "entities.py").write_text("Person = build_entity(key='person', plural='persons', is_person=True)\n")
    (tmp_path / "reform" / "entities.py").write_text("x\n")
    with pytest.raises(fisca.Refused) as told:
        fisca.Rules(tmp_path / "rules", reforms=[tmp_path / "reform"]).check()
    assert (told.value.path, told.value.line) == (str(tmp_path / "reform" / "entities.py"), 1)
