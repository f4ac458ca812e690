"""run, axes and frame: rows as they come, a run that is continued, and what is held."""
import gc
import importlib.util
import os
import sys
import time
import tracemalloc
import types
from fractions import Fraction

import pytest
from conftest import HEAD, TOP

import fisca

GRID = TOP / "examples" / "housing" / "grid.yaml"
RENTS = {"period": "2025-03", "columns": ["housing_benefit"]}


def rents(count):
    """A run over so many rents."""
    return {**RENTS, "axes": [[{"name": "rent", "count": count, "min": 0, "max": 900}]]}


def is_running(process):
    """Whether a process is there."""
    try:
        os.kill(process, 0)
    except ProcessLookupError:
        return False
    return True


def test_rows_of_a_file(housing):
    run = housing.run(GRID, rows=2)
    assert (run.axes, run.columns) == (("salary", "rent"), ("housing_benefit", "income_reduction"))
    assert list(run) == [fisca.Row(0, (0, 300), (225, 0)), fisca.Row(1, (400, 300), (225, 0))]
    assert run.more == 2
    assert {type(it) for row in housing.run(GRID) for it in (*row.axes, *row.columns)} == {Fraction}


def test_a_run_is_continued(housing):
    whole = list(housing.run(GRID))
    for size in (1, 2, 7, 100):
        pieces, start = [], 0
        while start is not None:
            run = housing.run(GRID, start=start, rows=size)
            pieces += run
            start = run.more
        assert pieces == whole
    none = housing.run(GRID, rows=0)
    assert (list(none), none.more, none.axes) == ([], 0, ("salary", "rent"))
    assert list(housing.run(GRID, start=28)) == []


def test_ranges_and_parts(housing):
    whole = list(housing.run(GRID))
    for cut in (0, 1, 5, 28):
        before, behind = housing.run(GRID, to=cut), housing.run(GRID, start=cut)
        assert [*before, *behind] == whole and before.more == (cut if cut < 28 else None)
    for count in (1, 3, 40):
        assert [row for at in range(count) for row in housing.run(GRID, part=(at + 1, count))] == whole
    with pytest.raises(fisca.Refused, match="BadPosition"):
        housing.run(GRID, to=29)


def test_decimals(small):
    said = {"period": "2017-01", "axes": [[{"name": "salary", "count": 3, "min": 1, "max": 3}]]}
    rows = list(small.run({**said, "columns": ["share", "is_high"]}, decimals=3))
    assert [str(it) for row in rows for it in row] == [
        "0", "(Decimal('1.000'),)", "(Decimal('1.000'), False)", "1", "(Decimal('2.000'),)",
        "(Decimal('0.500'), True)", "2", "(Decimal('3.000'),)", "(Decimal('0.333'), True)",
    ]


def test_keep_going(small):
    said = {"period": "2017-01", "axes": [[{"name": "salary", "count": 3, "min": -1, "max": 1}]], "columns": "share"}
    for workers in (1, 2):
        run = small.run(said, keep_going=True, workers=workers)
        assert list(run) == [(0, (-1,), (-1,)), (1, (0,), ("ZeroDivisor",)), (2, (1,), (1,))] and run.more is None


def test_rows_of_a_dict(small):
    axes = [
        [
            {"name": "salary", "count": 2, "min": 1, "max": 2.5},
            {"name": "salary", "index": 1, "count": 2, "min": 0, "max": 1},
        ],
        ({"name": "salary", "period": "2017-02", "count": 2, "min": -1, "max": 0},),
    ]
    run = small.run({
        "period": "2017-01",
        "input": {"persons": {"Ann": {}, "Bob": {}}},
        "axes": axes,
        "filter": ["is_high == true"],
        "columns": ("is_high", "choice", "share"),
        "neutralize": "choice",
    })
    assert run.axes == ("salary", "salary#1", "salary@2017-02")
    assert run.columns == ("is_high", "choice", "share")
    assert list(run) == [
        (1, (Fraction(5, 2), 1, -1), (True, "one", Fraction(2, 5))),
        (3, (Fraction(5, 2), 1, 0), (True, "one", Fraction(2, 5))),
    ]


def test_rows_are_not_held(housing):
    count = 10_000
    tracemalloc.start()
    try:
        found = sum(1 for _ in housing.run(rents(count)))
        peak = tracemalloc.get_traced_memory()[1]
    finally:
        tracemalloc.stop()
    assert found == count
    # so many rows are 5 MB; some values are kept to be given again
    assert peak < 2_000_000


ENDLESS = "echo $$ >{0}; " + HEAD + "; printf '0\\t1\\t1\\n'; exec yes \"$(printf '1\\t1\\t1')\""


@pytest.mark.parametrize("end", ["close", "with", "forget"])
def test_a_run_that_is_left_ends_its_program(stand_in, tmp_path, end):
    run = stand_in(ENDLESS.format(tmp_path / "process")).run(rents(2))
    process = int((tmp_path / "process").read_text())
    assert next(run).position == 0 and is_running(process)
    if end == "close":
        run.close()
        assert list(run) == [] and run.more is None
    elif end == "with":
        with run:
            next(run)
    del run
    gc.collect()
    assert not is_running(process)


def test_a_run_is_read_as_it_comes(stand_in):
    begin = time.monotonic()
    with stand_in(f"{HEAD}; printf '0\\t1\\t1\\n'; exec sleep 60").run(rents(2)) as run:
        assert next(run).position == 0
    assert time.monotonic() - begin < 30


def test_no_file_is_left(housing, tmp_path, monkeypatch):
    monkeypatch.setattr("tempfile.tempdir", str(tmp_path))
    run = housing.run(rents(50))
    next(run)
    assert list(tmp_path.iterdir()) == []
    housing.calc({})
    with pytest.raises(fisca.Refused):
        housing.calc({"nope": 1})
    assert list(tmp_path.iterdir()) == []


def test_axes():
    run = fisca.axes("salary=0..1/4", "rent=5..6/2", keep="salary > 0", rows=4)
    assert run.axes == ("salary", "rent") and run.columns == ()
    assert [it.axes for it in run] == [(Fraction(1, 3), 5), (Fraction(2, 3), 5), (1, 5), (Fraction(1, 3), 6)]
    assert run.more == 6
    assert [it.position for it in fisca.axes("salary=0..1/4", "rent=5..6/2", keep="salary>0", start=6)] == [6, 7]


class Frame:
    """Stands in for a pandas.DataFrame, where there is no pandas."""

    def __init__(self, cells):
        self.cells, self.columns, self.attrs = cells, list(cells), {}

    def rows(self):
        return list(zip(*self.cells.values()))


def test_frame(housing, small, monkeypatch):
    monkeypatch.setitem(sys.modules, "pandas", types.SimpleNamespace(DataFrame=Frame))
    frame = housing.frame(GRID, rows=2)
    assert frame.columns == ["position", "salary", "rent", "housing_benefit", "income_reduction"]
    assert frame.rows() == [(0, 0, 300, 225, 0), (1, 400, 300, 225, 0)]
    assert frame.attrs == {"more": 2}
    said = {"period": "2017-01", "axes": [[{"name": "salary", "count": 2, "min": 3, "max": -8}]]}
    frame = small.frame({**said, "columns": ["share", "share", "is_high", "choice"]}, decimals=3)
    assert frame.columns == ["position", "salary", "share", "share", "is_high", "choice"]
    assert frame.rows() == [(0, 3.0, 0.333, 0.333, True, "one"), (1, -8.0, -0.125, -0.125, False, "one")]
    assert [type(it) for it in frame.rows()[0]] == [int, float, float, float, bool, str]
    assert small.frame({**said, "columns": "share"}, decimals=2).rows()[1] == (1, -8.0, -0.13)
    for decimals in (-1, 19):
        with pytest.raises(ValueError):
            small.frame(said, decimals=decimals)


def test_frame_without_pandas(housing, monkeypatch):
    monkeypatch.setitem(sys.modules, "pandas", None)
    with pytest.raises(ImportError, match="pandas"):
        housing.frame(GRID)


@pytest.mark.skipif(importlib.util.find_spec("pandas") is None, reason="no pandas here: a stand-in was tried")
def test_frame_of_pandas(housing, small):
    frame = housing.frame(GRID, decimals=2)
    assert list(frame.columns) == ["position", "salary", "rent", "housing_benefit", "income_reduction"]
    assert [str(it) for it in frame.dtypes] == ["int64"] + ["float64"] * 4
    assert len(frame) == 23 and frame["housing_benefit"].iloc[0] == 225.0 and frame.attrs["more"] is None
    exact = housing.frame(GRID, rows=1)
    assert exact["housing_benefit"].iloc[0] == Fraction(225) and exact.attrs["more"] == 1
    twice = small.frame({"period": "2017-01", "axes": [[{"name": "salary", "count": 1, "min": 1, "max": 1}]],
                         "columns": ["is_high", "is_high", "choice"]})
    assert list(twice.columns) == ["position", "salary", "is_high", "is_high", "choice"]
    assert twice.dtypes.iloc[2] == bool
