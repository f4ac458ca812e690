"""A folder that is a small Linux of its own: programs with the C library that they need, and nothing else."""
import os
import pathlib
import re
import shutil
import subprocess

# where commands are looked for
PATHS = "/usr/local/bin:/usr/bin:/bin"
CHROOT = shutil.which("chroot", path=PATHS + ":/usr/sbin:/sbin")


def can_change_root():
    """Whether this process may run commands in a root of its own."""
    return os.geteuid() == 0 and CHROOT is not None


def libraries(path):
    """The files that a program is loaded with, its loader among them."""
    said = subprocess.run(["ldd", path], stdout=subprocess.PIPE, stderr=subprocess.DEVNULL, text=True).stdout
    return sorted(set(re.findall(r"(?:=> |^\s*)(/\S+)", said, re.M)))


class BareRoot:
    """A root in a folder, which has only what is put into it."""

    def __init__(self, folder, commands=()):
        self.folder = pathlib.Path(folder)
        for it in ("tmp", "bin", "usr/bin", "dev"):
            (self.folder / it).mkdir(parents=True, exist_ok=True)
        (self.folder / "tmp").chmod(0o1777)
        # what is thrown away is gathered in a plain file
        (self.folder / "dev" / "null").touch()
        (self.folder / "dev" / "null").chmod(0o666)
        for it in commands:
            self.add_command(it)

    def add_file(self, path, to=None):
        """Copies a file, to the same path where no other is given."""
        there = self.folder / str(to or path).lstrip("/")
        there.parent.mkdir(parents=True, exist_ok=True)
        if not there.exists():
            shutil.copy2(os.path.realpath(path), there)
        return there

    def add_command(self, name):
        """Copies a command with what it is loaded with, to /bin. A command that is not on this machine is an OSError."""
        path = shutil.which(name, path=PATHS)
        if path is None:
            raise OSError(f"no command {name}")
        self.add_file(path, f"/bin/{name}")
        for it in libraries(path):
            self.add_file(it)

    def run(self, command, folder="/", user=None, **env):
        """Runs a shell's command in a folder of this root. Answers what ran, with standard output and standard error as text."""
        who = ["--userspec", user] if user else []
        words = [CHROOT, *who, str(self.folder), "/bin/sh", "-c", f'cd "$1" && {command}', "sh", folder]
        how = {"stdin": subprocess.DEVNULL, "capture_output": True, "text": True, "errors": "replace", "timeout": 120}
        return subprocess.run(words, env={"PATH": "/usr/bin:/bin", "HOME": "/tmp", "LANG": "C.UTF-8", **env}, **how)
