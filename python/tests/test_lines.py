"""calc_lines: many situations by one process."""
import json
import tracemalloc
from decimal import Decimal
from fractions import Fraction

import pytest

import fisca


def people(salaries):
    """A situation for each salary."""
    for it in salaries:
        yield {"period": "2017-01", "input": {"persons": {f"p{it}": {"salary": it}}}, "columns": ["salary", "share"]}


ODD = [
    {"period": "2017-01", "input": {"persons": {"a\n\tb": {"salary": 3}}}, "columns": ["share", "choice", "is_high"]},
    {"nope": 1},
    {},
    {"period": "2017-01", "input": {"salary": 0}, "columns": ["salary", "share", "choice"]},
    {"period": "2017-01", "columns": "nope"},
    {"period": "2017-01", "input": {"salary": 2}, "columns": "share"},
    {},
]


def test_each_situation_has_what_calc_gives(small):
    found = list(small.calc_lines(ODD))
    assert [it.line for it in found] == [1, 2, 3, 4, 5, 6, 7]
    for it, said in zip(found, ODD):
        if it.fault is None:
            assert it.amounts == small.calc(said)
        else:
            with pytest.raises(type(it.fault)) as alone:
                small.calc(said)
            assert (it.fault.word, it.fault.path, it.fault.line) == (alone.value.word, None, it.line)
    assert found[0].amounts[0] == ("share", "a\n\tb", "2017-01", Fraction(1, 3))
    assert [it.value for it in found[0].amounts] == [Fraction(1, 3), "one", True]
    assert found[3].amounts == [("salary", "person", "2017-01", 0)]
    assert str(found[3].fault) == "fisca: -:4: ZeroDivisor share person 2017-01"
    assert (found[3].fault.key, found[3].fault.status) == ("share person 2017-01", 4)
    assert str(found[4].fault) == "fisca: -:5: BadColumn"


def test_a_file_gives_the_same(small, tmp_path):
    path = tmp_path / "a: 7.jsonl"
    path.write_text("".join(json.dumps(it) + "\n" for it in ODD))
    found, same = list(small.calc_lines(path)), list(small.calc_lines(ODD))
    assert [it[:2] for it in found] == [it[:2] for it in same]
    assert str(found[1].fault) == f"fisca: {path}:2: BadKey"
    assert (found[1].fault.path, found[1].fault.line) == (str(path), 2)
    assert (found[3].fault.path, found[3].fault.line, found[3].fault.word) == (str(path), 4, "ZeroDivisor")
    path.write_bytes(b"\xff\n{}")
    found = list(small.calc_lines(path))
    assert [(it.line, type(it.fault)) for it in found] == [(1, fisca.Failed), (2, type(None))]
    assert (found[0].fault.path, found[0].fault.line) == (str(path), 1)
    path.write_bytes(b"")
    assert list(small.calc_lines(path)) == list(small.calc_lines([])) == []


def test_decimals(small):
    found = list(small.calc_lines(people([3, 7]), decimals=2))
    assert [[it.value for it in one.amounts] for one in found] == [
        [Decimal("3.00"), Decimal("0.33")], [Decimal("7.00"), Decimal("0.14")],
    ]


def test_many_are_not_held(small):
    count = 3_000
    tracemalloc.start()
    try:
        total = sum(it.amounts[1].value * it.line for it in small.calc_lines(people(range(1, count + 1))))
        peak = tracemalloc.get_traced_memory()[1]
    finally:
        tracemalloc.stop()
    assert total == count and peak < 2_000_000


def test_they_are_asked_for_as_they_are_needed(small):
    asked = []

    def endless():
        at = 0
        while True:
            at += 1
            asked.append(at)
            yield from people([at])

    lines = small.calc_lines(endless())
    assert [next(lines).line for _ in range(3)] == [1, 2, 3]
    lines.close()
    assert len(asked) < 50_000


def test_faults_of_the_whole(small, tmp_path):
    with pytest.raises(fisca.Failed) as found:
        next(small.calc_lines(tmp_path / "none"))
    assert found.value.path == str(tmp_path / "none")
    with pytest.raises(ValueError):
        list(small.calc_lines(people([1, Fraction(1, 3)])))
    with pytest.raises(ZeroDivisionError):
        list(small.calc_lines({"period": 1 // it} for it in (1, 0)))
    (tmp_path / "small" / "variables" / "b.py").write_text("x = 1\n")
    for population in (people(range(1, 30_000)), ODD, []):
        with pytest.raises(fisca.Refused) as refused:
            list(small.calc_lines(population))
        assert (refused.value.path, refused.value.line, refused.value.word) == ("variables/b.py", 1, "Unsupported")


def test_a_program_that_ends_in_between(stand_in):
    line = '{"line":1,"variable":"a","member":"b","period":"c","value":1}'
    lines = stand_in(f"echo '{line}'; echo 'fisca: out of memory' >&2; exit 6").calc_lines(people(range(1, 30_000)))
    with pytest.raises(fisca.OutOfMemory):
        list(lines)
    with pytest.raises(fisca.FiscaError) as found:
        list(stand_in(f"echo '{line}'; kill -9 $$").calc_lines([{}, {}]))
    assert found.value.status == -9
