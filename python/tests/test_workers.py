"""Runs in parts: the rows of one run, and processes that die."""
import gc
import time

import pytest
from conftest import TOP

import fisca

GRID = TOP / "examples" / "housing" / "grid.yaml"
DIVIDED = {"period": "2017-01", "axes": [[{"name": "salary", "count": 41, "min": -20, "max": 20}]], "columns": "share"}


def lines(run):
    """The lines of a run, byte for byte, and where it goes on."""
    return [run.axes, run.columns, *run.texts(), run.more]


@pytest.mark.parametrize("workers", [2, 3, 7])
@pytest.mark.parametrize("options", [{}, {"start": 5}, {"to": 17}, {"start": 5, "to": 6}, {"start": 9, "to": 3},
                                     {"start": 28}, {"to": 28, "decimals": 2}], ids=str)
def test_the_lines_are_those_of_one_run(housing, workers, options):
    assert lines(housing.run(GRID, workers=workers, **options)) == lines(housing.run(GRID, **options))


def test_many_parts(housing, monkeypatch):
    monkeypatch.setattr("fisca._workers.POSITIONS", 100)
    said = {"period": "2025-03", "columns": "housing_benefit",
            "axes": [[{"name": "rent", "count": 3001, "min": 0, "max": 900}]]}
    assert lines(housing.run(said, workers=2)) == lines(housing.run(said))


def test_faults_come_behind_the_rows_before_them(small):
    run = small.run(DIVIDED, workers=4)
    assert [next(run).position for _ in range(20)] == list(range(20))
    with pytest.raises(fisca.NoValue) as found:
        next(run)
    assert (found.value.position, found.value.key) == (20, "share person 2017-01")
    assert list(run) == []
    for start in (42, 100):
        with pytest.raises(fisca.Refused, match="BadPosition"):
            small.run(DIVIDED, start=start, workers=2)
    with pytest.raises(fisca.Refused, match="BadPosition"):
        small.run(DIVIDED, to=42, workers=2)
    with pytest.raises(fisca.Refused) as refused:
        small.run({**DIVIDED, "columns": "nope"}, workers=2)
    assert (refused.value.path, refused.value.word) == (None, "BadColumn")


# each part makes its first tries fail: the process is killed, writes half, or tells that its output failed
FAILS = """
case $* in *size*) exec '{program}' "$@" ;; esac
for it; do case $it in --part=*) name=${{it#--part=}} ;; esac; done
mark={folder}/${{name%/*}}
echo >>$mark
if [ "$(wc -l <$mark)" -le {times} ]; then
  case $(({how})) in
    0) kill -9 $$ ;;
    1) '{program}' "$@" 2>/dev/null | head -c 60; exit 0 ;;
    2) printf 'position'; echo 'fisca: write failed' >&2; exit 5 ;;
    3) echo 'fisca: out of memory' >&2; exit 6 ;;
  esac
fi
exec '{program}' "$@"
"""


def failing(stand_in, tmp_path, times, how):
    """Rules whose program fails so often at each part."""
    (tmp_path / "marks").mkdir()
    program = fisca._program.program_of(None)
    rules = stand_in(FAILS.format(program=program, folder=tmp_path / "marks", times=times, how=how))
    rules.folder = TOP / "examples" / "housing"
    return rules


def test_a_worker_that_dies_is_tried_again_twice(stand_in, tmp_path, housing):
    rules = failing(stand_in, tmp_path, 2, "${name%/*} % 4")
    assert lines(rules.run(GRID, workers=2)) == lines(housing.run(GRID))


@pytest.mark.parametrize("how, kind, status", [(0, fisca.FiscaError, -9), (1, fisca.FiscaError, 0),
                                               (2, fisca.Failed, 5), (3, fisca.OutOfMemory, 6)])
def test_and_no_more(stand_in, tmp_path, how, kind, status):
    with pytest.raises(fisca.FiscaError) as found:
        list(failing(stand_in, tmp_path, 3, how).run(GRID, workers=2))
    assert (type(found.value), found.value.status) == (kind, status)
    assert (tmp_path / "marks" / "1").read_text() == "\n" * 3


@pytest.mark.parametrize("end", ["close", "forget"])
def test_a_run_that_is_left_ends_its_processes(stand_in, tmp_path, end):
    commands = "case $* in *size*) echo 100; exit ;; *--part=1/*) ;; *) exec sleep 60 ;; esac\n"
    commands += "printf 'position\\tsalary\\trent\\ta\\tb\\n0\\t1\\t1\\t1\\t1\\n'; echo more 12 >&2"
    begin = time.monotonic()
    run = stand_in(commands).run(GRID, workers=2)
    assert next(run).position == 0
    if end == "close":
        run.close()
        assert list(run) == []
    del run
    gc.collect()
    assert time.monotonic() - begin < 30


def test_no_file_is_left(housing, tmp_path, monkeypatch):
    monkeypatch.setattr("tempfile.tempdir", str(tmp_path))
    run = housing.run({"period": "2025-03", "axes": [[{"name": "rent", "count": 99, "min": 0, "max": 1}]]}, workers=2)
    next(run)
    assert list(tmp_path.iterdir()) == []
    run.close()
