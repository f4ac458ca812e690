"""examples/cluster: a run as a Slurm array and by Dask, and a population by GNU parallel, compared with one process."""
import contextlib
import importlib.util
import json
import os
import secrets
import shutil
import socket
import subprocess
import sys
import tempfile
import time
from pathlib import Path

import pytest
from conftest import TOP

import fisca

CLUSTER = TOP / "examples" / "cluster"
RULES = TOP / "examples" / "housing"
GRID = RULES / "grid.yaml"
PROGRAM = fisca._program.program_of(None)
HOW = {"stdin": subprocess.DEVNULL, "capture_output": True, "check": False}


def has(*names):
    """Whether all these commands are there, also where only root finds them."""
    return all(shutil.which(it, path=f"{os.environ['PATH']}:/usr/sbin") for it in names)


def environment(**more):
    """What a command finds around it."""
    return {**os.environ, "FISCA": PROGRAM, "PATH": f"{os.environ['PATH']}:/usr/sbin", **more}


def one_run():
    """What one run writes."""
    return subprocess.run([PROGRAM, "run", RULES, GRID], **HOW).stdout


def part(room, at, count, program=PROGRAM):
    """Works out a part by the script, and gives its status."""
    words = [CLUSTER / "part.sh", RULES, GRID, room, str(at), str(count)]
    return subprocess.run(words, **HOW, env=environment(FISCA=str(program))).returncode


# a program whose run is read by other commands, and ends in another way
BAD = """#!/bin/sh
case $1 in size) exec '{program}' "$@" ;; esac
exec 9<<END
$('{program}' "$@")
END
exec <&9
{end}
"""


def test_a_part_is_whole_or_absent(tmp_path):
    room = tmp_path / "parts"
    room.mkdir()
    bad = tmp_path / "bad"
    ends = [("head -n 1", 75), ("cat; kill -9 $$", 137), ("cat; echo 'fisca: write failed' >&2; exit 5", 5)]
    for end, status in ends:
        bad.write_text(BAD.format(program=PROGRAM, end=end))
        bad.chmod(0o755)
        assert part(room, 2, 4, bad) == status
        assert list(room.iterdir()) == []
    assert [part(room, at, 4) for at in (1, 2, 4)] == [0, 0, 0]
    join = [CLUSTER / "join.sh", room, "4", tmp_path / "out"]
    ran = subprocess.run(join, **HOW)
    assert (ran.returncode, ran.stderr) == (1, b"join.sh: part 3 is missing\n")
    assert part(room, 3, 4) == 0
    # what is there is not worked out again
    assert part(room, 3, 4, "/nowhere") == 0
    assert subprocess.run(join, **HOW).returncode == 0
    assert (tmp_path / "out").read_bytes() == one_run()
    assert sorted(it.name for it in room.iterdir()) == ["1", "2", "3", "4"]


SLURM = """
ClusterName=fisca
SlurmctldHost=localhost
AuthType=auth/munge
AuthInfo=socket={room}/munge.socket
CredType=cred/munge
SlurmUser=root
SlurmdUser=root
SlurmctldPort={port}
SlurmdPort={other}
StateSaveLocation={room}/state
SlurmdSpoolDir={room}/spool
SlurmctldPidFile={room}/slurmctld.pid
SlurmdPidFile={room}/slurmd.pid
SlurmctldLogFile={room}/slurmctld.log
SlurmdLogFile={room}/slurmd.log
ProctrackType=proctrack/linuxproc
TaskPlugin=task/none
JobAcctGatherType=jobacct_gather/none
SelectType=select/cons_tres
SelectTypeParameters=CR_CPU
ReturnToService=2
SchedulerParameters=sched_interval=1,batch_sched_delay=0
MpiDefault=none
JobRequeue=1
NodeName=localhost CPUs={cores} RealMemory=100 State=UNKNOWN
PartitionName=main Nodes=localhost Default=YES MaxTime=INFINITE State=UP
"""


def free_ports():
    """Two ports that nobody listens on."""
    with socket.socket() as one, socket.socket() as two:
        one.bind(("localhost", 0))
        two.bind(("localhost", 0))
        return one.getsockname()[1], two.getsockname()[1]


@contextlib.contextmanager
def processes(*calls, room, **more):
    """Processes that are there for a while."""
    with contextlib.ExitStack() as stack:
        for at, call in enumerate(calls):
            log = stack.enter_context(open(room / f"log{at}", "wb"))
            how = {"stdin": subprocess.DEVNULL, "stdout": log, "stderr": log, "env": environment(**more)}
            ran = stack.enter_context(subprocess.Popen(call, **how))
            stack.callback(ran.terminate)
        yield


@pytest.fixture
def slurm():
    """The environment in which Slurm's commands reach a Slurm on this machine."""
    if os.geteuid() != 0 or not has("munged", "slurmctld", "slurmd", "sbatch"):
        pytest.skip("no Slurm here (slurm-wlm and munge, started by root): the array was not tried")
    # a short name: sockets stand below it
    with tempfile.TemporaryDirectory(prefix="fisca-", dir="/tmp") as name:
        room = Path(name)
        for it in ("state", "spool"):
            (room / it).mkdir()
        (room / "key").write_bytes(secrets.token_bytes(128))
        (room / "key").chmod(0o400)
        port, other = free_ports()
        cores = len(os.sched_getaffinity(0)) if os.cpu_count() is None else os.cpu_count()
        (room / "slurm.conf").write_text(SLURM.format(room=room, port=port, other=other, cores=cores))
        named = [f"--{it}={room}/munge.{it}" for it in ("socket", "log-file", "pid-file", "seed-file")]
        munged = ["munged", "--foreground", "--force", f"--key-file={room}/key", *named]
        more = {"SLURM_CONF": str(room / "slurm.conf")}
        with processes(munged, ["slurmctld", "-D"], ["slurmd", "-D", "-N", "localhost"], room=room, **more):
            end = time.monotonic() + 60
            while b"idle" not in subprocess.run(["sinfo", "-h", "-o", "%t"], **HOW, env=environment(**more)).stdout:
                assert time.monotonic() < end, "".join(it.read_text(errors="replace") for it in room.glob("*log*"))
                time.sleep(0.2)
            yield more


def test_the_array_of_slurm(slurm, tmp_path):
    room = tmp_path / "parts"
    room.mkdir()
    # one is there, and has not to be made again
    assert part(room, 2, 6) == 0
    made = (room / "2").stat().st_mtime_ns
    words = ["sbatch", "--wait", "--array=1-6", "--output=/dev/null", CLUSTER / "part.sh", RULES, GRID, room]
    ran = subprocess.run(words, **HOW, env=environment(**slurm), timeout=120)
    assert (ran.returncode, ran.stderr) == (0, b"")
    assert (room / "2").stat().st_mtime_ns == made
    assert subprocess.run([CLUSTER / "join.sh", room, "6", tmp_path / "out"], **HOW).returncode == 0
    assert (tmp_path / "out").read_bytes() == one_run()


def test_dask_with_two_workers(tmp_path):
    python = next((it for it in (sys.executable, "/usr/bin/python3") if has_dask(it)), None)
    if not python:
        pytest.skip("no dask.distributed here: its script was not tried")
    port = free_ports()[0]
    address = f"tcp://127.0.0.1:{port}"
    call = [python, "-B", "-m"]
    run = [*call, "distributed.cli.dask_scheduler", "--host", "127.0.0.1", "--port", str(port), "--no-dashboard"]
    work = [*call, "distributed.cli.dask_worker", address, "--nthreads", "1", "--no-dashboard",
            "--local-directory", str(tmp_path)]
    # the first try of a part is cut short
    bad = tmp_path / "bad"
    bad.write_text(f"""#!/bin/sh
case $*,$(ls '{tmp_path}') in
  *--part=3/*,*failed*|size*) ;;
  *--part=3/*) touch '{tmp_path}/failed'; '{PROGRAM}' "$@" | head -n 1; exit ;;
esac
exec '{PROGRAM}' "$@"
""")
    bad.chmod(0o755)
    with processes(run, work, work, room=tmp_path, FISCA=str(bad)):
        words = [python, "-B", CLUSTER / "dask_run.py", RULES, GRID, tmp_path / "parts", tmp_path / "out",
                 "--parts", "5", "--scheduler", address]
        ran = subprocess.run(words, **HOW, env=environment(), timeout=120)
    assert ran.returncode == 0, ran.stderr.decode()
    assert (tmp_path / "failed").exists()
    assert (tmp_path / "out").read_bytes() == one_run()


def has_dask(python):
    """Whether a Python has dask.distributed."""
    if python == sys.executable:
        return importlib.util.find_spec("distributed") is not None
    return os.path.exists(python) and subprocess.run([python, "-c", "import distributed"], **HOW).returncode == 0


def family(at):
    """A family of a population: the salary, the rent and the number of children go round."""
    persons = {f"parent {at}": {"salary": 37 * at % 4001, "age": 35}}
    children = [f"child {it}\t{at}" for it in range(at % 4)]
    persons.update({it: {"age": 7} for it in children})
    groups = {f"home {at}": {"parents": [f"parent {at}"], "children": children, "rent": 101 * at % 1503}}
    columns = ["household_income", "housing_benefit"]
    return {"period": "2025-03", "input": {"persons": persons, "households": groups}, "columns": columns}


def test_a_population(tmp_path):
    if not has("parallel"):
        pytest.skip("no GNU parallel here: examples/cluster/population.sh was not tried")
    (tmp_path / "home").mkdir()
    lines = [json.dumps(family(at)) for at in range(90)]
    lines[40], lines[62] = '{"nope": 1}', '{"columns": "eligible_rent@2023-12"}'
    (tmp_path / "families").write_text("\n".join(lines) + "\n")
    with open(tmp_path / "families", "rb") as file:
        one = subprocess.run([PROGRAM, "calc", RULES, "-", "--lines"], stdin=file, capture_output=True, check=False)
    how = {**HOW, "env": environment(BLOCK="20", PARALLEL_HOME=str(tmp_path / "home"))}
    many = subprocess.run([CLUSTER / "population.sh", RULES, tmp_path / "families", "--jobs", "2"], **how)
    assert (many.returncode, many.stdout, many.stderr) == (one.returncode, one.stdout, one.stderr)
    assert many.returncode == 4 and many.stdout.count(b"\n") == 176
    found = list(fisca.Rules(RULES).calc_lines(tmp_path / "families"))
    assert ["\t".join(map(str, [it.line, *amount[:3]])) for it in found for amount in it.amounts] == [
        line.rpartition("\t")[0] for line in many.stdout.decode().splitlines()
    ]
