#!/usr/bin/env python3
"""bin/debian.py NAME..: installs packages of Debian by apt-get, which root may do where apt-get is. The status is 1 where one is not there then."""
import contextlib
import os
import shutil
import subprocess
import sys

SECONDS = 600
INSTALL = ["install", "-y", "--no-install-recommends"]


def apt_get(*words):
    """Calls apt-get, which may fail. Nothing that it installs begins to serve."""
    environment = {**os.environ, "DEBIAN_FRONTEND": "noninteractive", "RUNLEVEL": "1"}
    how = {"stdin": subprocess.DEVNULL, "capture_output": True, "timeout": SECONDS}
    with contextlib.suppress(subprocess.TimeoutExpired):
        subprocess.run(["apt-get", "-q", *words], env=environment, check=False, **how)


def install(missing):
    """Installs the packages that `missing` says are not there. Answers why it could not, or nothing."""
    if os.geteuid() != 0 or not shutil.which("apt-get"):
        return "only root may install it, by apt-get"
    apt_get(*INSTALL, *missing())
    if missing():
        # the lists of packages may be of an earlier day, and one that is not there keeps out the others
        apt_get("update")
        for name in missing():
            apt_get(*INSTALL, name)
    return "apt-get could not install it" if missing() else ""


def without(names):
    """Those of these packages that dpkg does not know as installed."""
    there = [["dpkg-query", "-W", "-f", "${Status}", name] for name in names]
    told = [subprocess.run(words, stdin=subprocess.DEVNULL, capture_output=True, text=True, check=False).stdout for words in there]
    return [name for name, status in zip(names, told) if not status.endswith(" installed")]


def main(names):
    why = install(lambda: without(names)) if without(names) else ""
    if why:
        print(f"not there: {' '.join(names)}: {why}", file=sys.stderr)
    return int(bool(why))


if __name__ == "__main__":
    sys.exit(main(sys.argv[1:]))
