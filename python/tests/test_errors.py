"""Each fault as an exception, with the program's own line."""
import pickle

import pytest
from conftest import HEAD, TOP

import fisca

GRID = {"period": "2017-01", "axes": [[{"name": "salary", "count": 3, "min": 2, "max": 0}]], "columns": "share"}


def test_a_rule_file_is_refused(small, tmp_path):
    (tmp_path / "small" / "variables" / "b.py").write_text("\nx = 1\n")
    for call in (small.check, small.list, lambda: small.calc({}), lambda: small.run(GRID), lambda: small.test([])):
        with pytest.raises(fisca.Refused) as found:
            call()
        assert str(found.value) == "fisca: variables/b.py:2: Unsupported"
        assert (found.value.path, found.value.line, found.value.word) == ("variables/b.py", 2, "Unsupported")
        assert found.value.status == 3


@pytest.mark.parametrize("name", ["file.yaml", "a: 7: b", "a\nb"])
def test_the_file_of_a_command_is_refused(small, tmp_path, name):
    path = tmp_path / name
    path.write_text("period: 2017-01\ncolumns: nope\n")
    with pytest.raises(fisca.Refused) as found:
        small.calc(path)
    shown = str(path).replace("\n", "\\x0a")
    assert found.value.text == f"fisca: {shown}:2: BadColumn"
    assert (found.value.path, found.value.line, found.value.word) == (shown, 2, "BadColumn")


@pytest.mark.parametrize(
    "said, word",
    [
        ({"columns": "nope"}, "BadColumn"),
        ({"nope": 1}, "BadKey"),
        ({"input": {"salary": "1"}, "period": "2017-01"}, "BadValue"),
        ({"input": {"nope": 1}}, "UnknownVariable"),
        ({"period": None, "columns": "salary", 2017: {"2017": 1}, "2017": 1}, "DuplicateKey"),
    ],
)
def test_data_is_refused(small, said, word):
    with pytest.raises(fisca.Refused) as found:
        small.calc(said)
    assert (found.value.path, found.value.line, found.value.word) == (None, None, word)
    assert str(found.value).endswith(f":1: {word}")


def test_data_is_refused_below_any_folder(small, tmp_path, monkeypatch):
    (tmp_path / "a\n: 1: b").mkdir()
    monkeypatch.setattr("tempfile.tempdir", str(tmp_path / "a\n: 1: b"))
    with pytest.raises(fisca.Refused) as found:
        small.calc({"nope": 1})
    assert (found.value.path, found.value.line, found.value.word) == (None, None, "BadKey")


def test_tests_and_runs_are_refused(small):
    with pytest.raises(fisca.Refused, match="BadTest"):
        small.test([{"period": "2017-01"}])
    with pytest.raises(fisca.Refused, match="NoAxes"):
        small.run({"axes": []})
    with pytest.raises(fisca.Refused) as found:
        small.run(GRID, start=4)
    assert (found.value.text, found.value.path, found.value.word) == ("fisca: BadPosition", None, "BadPosition")
    with pytest.raises(fisca.Refused, match="^fisca: BadCount$"):
        fisca.axes("salary=0..1/0")


def test_no_value_of_a_column(small):
    said = {"period": "2017-01", "input": {"persons": {"Ann B C": {}}}, "columns": ["salary", "share"]}
    with pytest.raises(fisca.NoValue) as found:
        small.calc(said)
    it = found.value
    assert str(it) == "fisca: ZeroDivisor share Ann B C 2017-01"
    assert (it.key, it.path, it.line) == ("share Ann B C 2017-01", None, None)
    assert (it.position, it.word, it.variable, it.member, it.period, it.status) == (
        None, "ZeroDivisor", "share", "Ann B C", "2017-01", 4
    )


def test_no_value_of_a_run_comes_behind_the_rows_before_it(small):
    run = small.run(GRID)
    assert [next(run).position, next(run).position] == [0, 1]
    with pytest.raises(fisca.NoValue) as found:
        next(run)
    assert str(found.value) == "fisca: position 2: ZeroDivisor share person 2017-01"
    assert (found.value.position, found.value.word, found.value.variable) == (2, "ZeroDivisor", "share")
    assert list(run) == []


def test_a_long_line_of_a_fault_is_read(small):
    name = "a" * 300_000
    said = {**GRID, "input": {"persons": {name: {}}}}
    with pytest.raises(fisca.NoValue) as found:
        list(small.run(said))
    assert found.value.member == name


def test_files_that_cannot_be_read(small, tmp_path):
    (tmp_path / "bytes").write_bytes(b"\xc3(")
    for name in ("none", "bytes"):
        with pytest.raises(fisca.Failed) as found:
            small.calc(tmp_path / name)
        assert (found.value.path, found.value.status) == (str(tmp_path / name), 5)
        assert str(found.value) == f"fisca: {tmp_path / name}: cannot read"
    with pytest.raises(fisca.Failed) as found:
        fisca.Rules(tmp_path / "none").check()
    assert (found.value.path, str(found.value)) == (str(tmp_path / "none"), f"fisca: cannot list {tmp_path / 'none'}")


@pytest.mark.parametrize(
    "line, status, kind",
    [
        ("fisca: out of memory", 6, fisca.OutOfMemory),
        ("fisca: write failed", 5, fisca.Failed),
        ("error: invalid UTF-8 was detected in one or more arguments", 2, fisca.FiscaError),
        ("", 7, fisca.FiscaError),
    ],
)
def test_other_ends(stand_in, line, status, kind):
    rules = stand_in(f"printf '{line}' >&2; exit {status}")
    for call in (rules.check, lambda: rules.calc({}), lambda: list(rules.run(GRID)), lambda: rules.test([])):
        with pytest.raises(fisca.FiscaError) as found:
            call()
        assert type(found.value) is kind
        assert str(found.value) == (line or "the program ended with status 7")
        assert found.value.status == status


def test_want_of_memory(stand_in):
    program = fisca._program.program_of(None)
    persons = {f"p{it}": {"salary": it} for it in range(1000)}
    said = {"period": "2025-03", "input": {"persons": persons}, "columns": [f"salary#{it}" for it in range(1000)]}
    found = []
    # with too few kilobytes it is not even loaded, and with enough of them it has its values
    for size in range(3000, 20000, 1000):
        rules = stand_in(f"ulimit -v {size}; exec '{program}' \"$@\"")
        rules.folder = TOP / "examples" / "housing"
        try:
            rules.calc(said)
            break
        except fisca.FiscaError as error:
            found.append((type(error), str(error), error.status))
    assert found[-1] == (fisca.OutOfMemory, "fisca: out of memory", 6)


def test_memory_that_ends_within_a_run(stand_in):
    rules = stand_in(f"{HEAD}; printf '0\\t2\\t1\\n1\\t1'; echo 'fisca: out of memory' >&2; exit 6")
    run = rules.run(GRID)
    assert next(run) == (0, (2,), (1,))
    with pytest.raises(fisca.OutOfMemory):
        next(run)


def test_a_program_that_is_killed_or_ends_too_early(stand_in):
    with pytest.raises(fisca.FiscaError) as found:
        stand_in("kill -9 $$").check()
    assert (type(found.value), found.value.status) == (fisca.FiscaError, -9)
    run = stand_in(f"{HEAD}; printf '0\\t2\\t1\\n'").run(GRID)
    next(run)
    with pytest.raises(fisca.FiscaError):
        next(run)
    hello = stand_in("echo hello")
    for call in (hello.check, hello.list, lambda: hello.calc({}), lambda: hello.explain({}), lambda: hello.size(GRID),
                 lambda: hello.run(GRID), lambda: list(hello.calc_lines([{}]))):
        with pytest.raises(fisca.FiscaError):
            call()
    for call in (stand_in("exit 0").check, lambda: list(stand_in(f"{HEAD}; printf '0\\t1\\n'; echo end >&2").run(GRID))):
        with pytest.raises(fisca.FiscaError):
            call()
    for printed in ("{}", "1", '{"declared": 1}'):
        with pytest.raises(fisca.FiscaError):
            stand_in(f"echo '{printed}'").list()


NO_OPTIONS = [
    {"start": -1}, {"rows": -1}, {"to": -1}, {"decimals": -1}, {"decimals": 19}, {"part": (0, 1)}, {"part": (3, 2)},
    {"part": (1, 1_000_001)}, {"part": (1, 2), "start": 1}, {"part": (1, 2), "to": 1}, {"workers": 0},
    {"workers": 2, "rows": 1}, {"workers": 2, "part": (1, 2)}, {"workers": 2, "to": -1},
]


@pytest.mark.parametrize("options", NO_OPTIONS, ids=str)
def test_options_that_are_none(small, options):
    with pytest.raises(ValueError):
        small.run(GRID, **options)


def test_numbers_that_are_not_whole(small):
    for options in ({"start": 1.5}, {"to": "1"}, {"decimals": 1.0}, {"part": (1, 2.0)}):
        with pytest.raises(TypeError):
            small.run(GRID, **options)
    for decimals in (-1, 19):
        with pytest.raises(ValueError):
            small.calc({}, decimals=decimals)


def test_exceptions_can_be_passed_between_processes(small):
    with pytest.raises(fisca.NoValue) as found:
        list(small.run(GRID))
    again = pickle.loads(pickle.dumps(found.value))
    assert (type(again), str(again), again.position) == (fisca.NoValue, str(found.value), 2)
    with pytest.raises(fisca.Refused) as refused:
        small.calc({"nope": 1})
    again = pickle.loads(pickle.dumps(refused.value))
    assert (again.path, again.word) == (None, "BadKey")
