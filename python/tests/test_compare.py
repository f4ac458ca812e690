"""compare: where the rows of two runs differ, beside what the rows of both say."""
import pytest
from conftest import TOP

import fisca

GRID = TOP / "examples" / "housing" / "grid.yaml"
RATE = TOP / "examples" / "housing" / "parameters" / "housing_benefit" / "rent_share.yaml"


def reform_of(folder, path, text):
    """A folder of a reform with this file."""
    file = folder / "reform" / path
    file.parent.mkdir(parents=True, exist_ok=True)
    file.write_text(text, encoding="utf-8")
    return folder / "reform"


@pytest.fixture
def higher(tmp_path):
    """A reform that pays a greater share of the rent."""
    text = RATE.read_text()
    assert "value: 0.6" in text
    return reform_of(tmp_path, "parameters/housing_benefit/rent_share.yaml", text.replace("value: 0.6", "value: 0.65"))


def others(before, after):
    """The differences of two lists of rows."""
    first, second = ({it.position: it for it in rows} for rows in (before, after))
    found = []
    for place in sorted({*first, *second}):
        one, other = first.get(place), second.get(place)
        if one is None or other is None or one.columns != other.columns:
            axes = (one or other).axes
            found.append(fisca.Difference(place, axes, one and one.columns, other and other.columns))
    return found


def test_differences_are_those_of_the_rows(housing, higher):
    reformed = fisca.Rules(housing.folder, housing.program, reforms=[higher])
    wanted = others(housing.run(GRID), reformed.run(GRID))
    found = housing.compare(higher, GRID)
    assert (found.axes, found.columns) == (("salary", "rent"), ("housing_benefit", "income_reduction"))
    assert list(found) == wanted and 0 < len(wanted) < 28 and found.more is None
    back = [(it.position, it.axes, it.after, it.before) for it in reformed.compare(housing.folder, GRID)]
    assert back == wanted
    assert list(housing.compare([], GRID)) == [] == list(housing.compare(housing.folder, GRID))
    assert list(reformed.compare([], GRID)) == []


def test_rows_that_one_run_has_alone(housing, higher):
    said = {"period": "2025-03", "axes": [[{"name": "rent", "count": 91, "min": 0, "max": 900}]]}
    said = {**said, "filter": "housing_benefit >= 100", "columns": ["housing_benefit"]}
    reformed = fisca.Rules(housing.folder, housing.program, reforms=[higher])
    wanted = others(housing.run(said), reformed.run(said))
    assert list(housing.compare(higher, said)) == wanted
    assert any(it.before is None for it in wanted) and not any(it.after is None for it in wanted)
    assert [it.after for it in reformed.compare(housing.folder, said)] == [it.before for it in wanted]


def test_parts_and_decimals(housing, higher):
    whole = list(housing.compare(higher, GRID))
    for count in (1, 3, 40):
        assert [it for at in range(count) for it in housing.compare(higher, GRID, part=(at + 1, count))] == whole
    for cut in (0, 5, 28):
        before = housing.compare(higher, GRID, to=cut)
        assert [*before, *housing.compare(higher, GRID, start=cut)] == whole
        assert before.more == (cut if cut < 28 else None)
    assert list(housing.compare(higher, GRID, workers=3)) == whole
    # what is rounded alike is no difference
    tiny = RATE.read_text().replace("value: 0.6", "value: 0.600001")
    reform = reform_of(higher.parent / "tiny", "parameters/housing_benefit/rent_share.yaml", tiny)
    assert len(list(housing.compare(reform, GRID))) == len(whole) and list(housing.compare(reform, GRID, decimals=2)) == []


SALARIES = {"period": "2017-01", "axes": [[{"name": "salary", "count": 3, "min": -1, "max": 1}]], "columns": "share"}


def shares_by(tmp_path, name, divisor):
    """A reform of the small rules whose share divides by something else."""
    text = (tmp_path / "small" / "variables" / "a.py").read_text()
    assert text.count('1 / person("salary", period)') == 1
    return reform_of(tmp_path / name, "variables/a.py", text.replace('1 / person("salary", period)', f"1 / {divisor}"))


def test_faults(small, tmp_path):
    # the rules have no value at position 1, the first reform at none, the second none at position 2
    none = shares_by(tmp_path, "none", '(person("salary", period) * 0)')
    last = shares_by(tmp_path, "last", '(person("salary", period) - 1)')
    found = small.compare(none, SALARIES)
    with pytest.raises(fisca.NoValue) as fault:
        next(found)
    assert (fault.value.position, fault.value.word) == (0, "ZeroDivisor") and list(found) == []
    found = small.compare(last, SALARIES)
    assert next(found) == (0, (-1,), (-1,), (fisca._values.number_of("-1/2"),))
    with pytest.raises(fisca.NoValue) as fault:
        next(found)
    assert fault.value.position == 1
    words = list(small.compare(none, SALARIES, keep_going=True))
    assert words == [(0, (-1,), (-1,), ("ZeroDivisor",)), (2, (1,), (1,), ("ZeroDivisor",))]


def test_refusals(housing, small, tmp_path):
    with pytest.raises(fisca.Refused, match="BadPosition"):
        housing.compare([], GRID, to=29)
    wrong = reform_of(tmp_path, "variables/b.py", "class b(Variable):\n    value_type = float\n")
    with pytest.raises(fisca.Refused) as fault:
        small.compare(wrong, SALARIES)
    assert fault.value.path == str(wrong / "variables" / "b.py")
    with pytest.raises(ValueError, match="workers"):
        housing.compare([], GRID, workers=0)


def test_the_first_run_is_closed_where_the_second_is_refused(small, tmp_path, monkeypatch):
    closed = []
    monkeypatch.setattr(fisca.Run, "close", lambda run: closed.append(run))
    with pytest.raises(fisca.Refused):
        small.compare(reform_of(tmp_path, "variables/b.py", "class b(Variable):\n    value_type = float\n"), SALARIES)
    assert len(closed) == 1


def test_what_comes_behind_a_difference_is_told_behind_it(stand_in):
    # the rules run out of memory behind a row that the reform has not
    rules = stand_in("""case "$*" in *--reform*) printf 'position\\trent\\tx\\n'; echo end >&2; exit 0 ;; esac
printf 'position\\trent\\tx\\n0\\t1\\t2\\n'; echo 'fisca: out of memory' >&2; exit 6""")
    found = rules.compare("reform", {"axes": [[{"name": "rent", "count": 2, "min": 0, "max": 1}]]})
    assert next(found) == (0, (1,), (2,), None)
    with pytest.raises(fisca.OutOfMemory):
        next(found)


def test_a_comparison_is_closed(housing, higher):
    with housing.compare(higher, GRID) as found:
        next(found)
    assert list(found) == [] and found.more is None


def test_a_condition_is_no_number():
    row = fisca.Row(0, (), (True,))
    assert fisca._comparing.are_other(row, fisca.Row(0, (), (fisca._values.number_of("1"),)))
    assert not fisca._comparing.are_other(row, row)
