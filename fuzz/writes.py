"""Failing writes: each command writes into a file that may have so many bytes and no more, for each number of bytes
below those that it writes in all; of a long output for some, by lot. The file then has just the first bytes, as many as
may be, the status is 5, and a line says that the write failed, whatever would have come behind.
"""
import resource
import signal
import subprocess

import common
import growths

COUNT = 0
# of more bytes so many numbers are drawn
LONG, DRAWN = 4000, 200
# longer than what the program holds before it writes
MANY = growths.Call("axes", {}, "", ("x=0..30000/30001",))
WRITE_FAILED = common.Answer("", "fisca: write failed", 5)


def limited(most):
    """Makes this process one that can write no more bytes into a file, and is told so by the write."""
    signal.signal(signal.SIGXFSZ, signal.SIG_IGN)
    resource.setrlimit(resource.RLIMIT_FSIZE, (most, most))


def answer_within(fuzz, words, most):
    """What `fisca` leaves in a file of so many bytes at most, tells, and answers."""
    path = fuzz.room / "out"
    with path.open("wb") as file:
        ran = subprocess.run(
            [fuzz.program("fisca"), *map(str, words)],
            stdin=subprocess.DEVNULL,
            stdout=file,
            stderr=subprocess.PIPE,
            timeout=common.SECONDS,
            restore_signals=False,
            preexec_fn=lambda: limited(most),
        )
    told = ran.stderr.decode(errors="backslashreplace")
    return common.Answer(path.read_bytes(), told.removesuffix("\n"), ran.returncode)


def run(fuzz):
    """Tries each call with each number of bytes, or with so many of them by lot."""
    for name, call in {**growths.calls(), "axes of many positions": MANY}.items():
        words = growths.words_of(fuzz, call)
        whole = fuzz.call(*words).out.encode()
        some = range(len(whole))
        drawn = fuzz.count or (DRAWN if len(whole) > LONG else len(whole))
        if drawn < len(whole):
            some = sorted(fuzz.lot.sample(some, drawn))
        for most in some:
            found = answer_within(fuzz, words, most)
            wanted = WRITE_FAILED._replace(out=whole[:most])
            fuzz.check(found == wanted, f"{name}, {most} of {len(whole)} bytes: {found}")
        fuzz.note(f"{name}: {len(some)} of {len(whole)} bytes")
