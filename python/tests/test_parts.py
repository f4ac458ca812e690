"""bin/fisca-parts: runs in parts by GNU parallel, some of which are cut short, killed or refused, and calls that end."""
import os
import shutil
import signal
import subprocess
import time

import pytest
from conftest import TOP

import fisca

WHY = "no GNU parallel here: bin/fisca-parts was not tried"
pytestmark = pytest.mark.skipif(shutil.which("parallel") is None, reason=WHY)

PARTS = TOP / "bin" / "fisca-parts"
RULES = TOP / "examples" / "housing"
GRID = RULES / "grid.yaml"
# fails at the first tries of some parts, as many as stand behind the word
STAND_IN = """#!/bin/sh
case $1 in size) exec '{program}' "$@" ;; esac
for it; do case $it in --part=*) name=${{it#--part=}}; name=${{name%/*}} ;; esac; done
echo >>'{room}'/marks/$name
turn=$(wc -l <'{room}'/marks/$name)
fails() {{ [ "$name" = "$1" ] && [ "$turn" -le "$2" ]; }}
if fails 3 1; then '{program}' "$@" | head -c 20; exit 0; fi
if fails 6 1; then kill -9 $$; fi
if fails 7 2; then echo 'fisca: out of memory' >&2; exit 6; fi
if fails 11 1; then echo 'fisca: variables/a.py:7: Unsupported' >&2; exit 3; fi
if fails 13 1; then sleep 0.1; kill -9 $PPID; fi
exec '{program}' "$@"
"""


@pytest.fixture
def room(tmp_path, monkeypatch):
    """A folder with a program that fails at some parts."""
    (tmp_path / "marks").mkdir()
    program = tmp_path / "stand in"
    program.write_text(STAND_IN.format(program=fisca._program.program_of(None), room=tmp_path))
    program.chmod(0o755)
    monkeypatch.setenv("PARALLEL_HOME", str(tmp_path / "home"))
    (tmp_path / "home").mkdir()
    return tmp_path


def called(room, *words, program=None, rules=RULES, file=GRID):
    """Runs bin/fisca-parts, which writes to `out` of the folder."""
    environment = {**os.environ, "FISCA": str(program or fisca._program.program_of(None))}
    how = {"stdin": subprocess.DEVNULL, "capture_output": True, "text": True, "env": environment, "cwd": room}
    return subprocess.run([PARTS, rules, file, "--out", "out", "--jobs", "2", *words], check=False, **how)


def one_run(*options, rules=RULES, file=GRID):
    """What one run writes."""
    words = [fisca._program.program_of(None), "run", *options, rules, file]
    return subprocess.run(words, stdin=subprocess.DEVNULL, capture_output=True, check=False).stdout


def tries(room):
    """How often each part was tried."""
    return {int(it.name): len(it.read_text()) for it in (room / "marks").iterdir()}


def test_sixteen_parts_some_of_which_fail(room):
    program = room / "stand in"
    ran = called(room, "--parts", "16", program=program)
    assert (ran.returncode, ran.stdout) == (3, "")
    assert ran.stderr == "fisca-parts: part 11/16: fisca: variables/a.py:7: Unsupported\n"
    assert tries(room) == {**dict.fromkeys(range(1, 17), 1), 3: 2, 6: 2, 7: 3, 13: 2}
    assert not (room / "out").exists()
    assert len(list((room / "out.parts").glob("part-*"))) == 15
    # other options are another run
    assert called(room, "--parts", "16", "--header", program=program).returncode == 2
    ran = called(room, "--parts", "16", program=program)
    assert (ran.returncode, ran.stdout, ran.stderr) == (0, "", "")
    assert tries(room)[11] == 2 and sum(tries(room).values()) == 22
    assert (room / "out").read_bytes() == one_run()
    assert not (room / "out.parts").exists()


def test_a_call_that_is_killed_is_gone_on_with(room):
    slow = room / "slow"
    text = (room / "stand in").read_text()
    slow.write_text(text.replace("exec '", "case $name in [5-8]) sleep 20 ;; esac; exec '", 2))
    slow.chmod(0o755)
    words = [PARTS, RULES, GRID, "--out", "out", "--jobs", "2", "--parts", "8"]
    (room / "marks" / "5").touch()
    with subprocess.Popen(words, cwd=room, env={**os.environ, "FISCA": str(slow)}, start_new_session=True) as ran:
        end = time.monotonic() + 60
        while time.monotonic() < end and not ((room / "marks" / "5").read_text() and (room / "marks" / "6").exists()):
            time.sleep(0.05)
        os.killpg(ran.pid, signal.SIGKILL)
    before = tries(room)
    assert before[5] == 1 and not (room / "out").exists()
    ran = called(room, "--parts", "8", program=room / "stand in")
    assert (ran.returncode, ran.stderr) == (0, "")
    # what was whole is not worked out again
    assert [tries(room)[at] - before[at] for at in (1, 2, 4)] == [0, 0, 0]
    assert (room / "out").read_bytes() == one_run()


def test_forms_and_keeping_going(room, small):
    file = room / "run.json"
    axes = '[[{"name": "salary", "count": 9, "min": -4, "max": 4}]]'
    file.write_text(f'{{"period": "2017-01", "axes": {axes}, "columns": "share"}}')
    how = {"rules": small.folder, "file": file}
    ran = called(room, "--parts", "3", **how)
    fault = "fisca: position 4: ZeroDivisor share person 2017-01\n"
    assert (ran.returncode, ran.stderr) == (4, f"fisca-parts: part 2/3: {fault}")
    shutil.rmtree(room / "out.parts")
    options = ["--keep-going", "--format", "csv", "--header", "--decimals", "2"]
    ran = called(room, "--parts", "4", *options, **how)
    assert (ran.returncode, ran.stderr) == (4, "")
    assert (room / "out").read_bytes() == one_run(*options, **how)


def test_reforms_are_laid_over(room):
    folders = [room / "a reform", room / "b's"]
    for folder, value in zip(folders, (45, 90)):
        path = folder / "parameters" / "housing_benefit" / "smallest_amount.yaml"
        path.parent.mkdir(parents=True)
        text = (RULES / path.relative_to(folder)).read_text()
        path.write_text(text.replace("value: 25\n", f"value: {value}\n"))
    options = [f"--reform={it}" for it in folders]
    assert called(room, "--parts", "5", *options).returncode == 0
    assert (room / "out").read_bytes() == one_run(*options) != one_run()
    # the folders count among what decides the lines
    kept = room / "out.parts"
    kept.mkdir()
    (kept / "run").write_text("another run\n")
    assert called(room, "--parts", "5", *options).returncode == 2


def test_more_parts_than_positions_on_other_machines(room):
    # a machine that is reached by a command of our own, for want of another one, and has a shell as behind an sshd
    ssh = room / "ssh"
    ssh.write_text(f"#!/bin/sh\nshift 2\necho >>'{room}'/reached\nSHELL=/bin/sh exec sh -c \"$*\"\n")
    ssh.chmod(0o755)
    (room / "machines").write_text(f"1/{ssh} one\n1/{ssh} two\n")
    ran = called(room, "--parts", "30", "--machines", "machines", "--jobs", "4", "--format", "jsonl")
    assert (ran.returncode, ran.stderr) == (0, "")
    assert (room / "out").read_bytes() == one_run("--format", "jsonl")
    assert len((room / "reached").read_text()) >= 30


def test_what_is_refused_at_once(room):
    ran = called(room, "--parts", "3", file=room / "none")
    assert (ran.returncode, ran.stderr) == (5, f"fisca: {room}/none: cannot read\n")
    for words in (["--parts", "0"], ["--parts", "1000001"], ["--parts", "2", "--header", "--format", "jsonl"], []):
        assert called(room, *words).returncode == 2
    assert sorted(it.name for it in room.iterdir()) == ["home", "marks", "stand in"]
