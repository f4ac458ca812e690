"""Runs a program with each growth of its memory refused in turn.

The program runs under ptrace of Linux on x86-64, and nothing is built into it for this. A breakpoint stands on each
function by which it asks for memory. Where it meets one, it is made to fork: in the new process that call returns at
once and says that there is no memory, and the process runs on to its end. Then the first one goes on, up to the next
growth. So each growth costs no more than what the program does behind it.
"""
import ctypes
import os
import resource
import signal
import struct

import common

# the functions of the toolchain's runtime by which a program asks for memory: they answer 0 where there is none
ASKING = (b"rattle_alloc", b"rattle_realloc")
BREAKPOINT, SYSTEM_CALL = b"\xcc", b"\x0f\x05"
# the number of the call that forks, and its first word: that the new process is a child of the one that traces
CLONE, TO_PARENT = 56, 0x8000
# what is asked of Linux about a process that is traced
TRACED, GO_ON, STEP, GET_REGISTERS, SET_REGISTERS, SET_OPTIONS, GET_MESSAGE = 0, 7, 9, 12, 13, 0x4200, 0x4201
# options: what a traced process clones is traced too, and all end with the one that traces them
TRACE_CLONES, END_WITH_US = 8, 1 << 20
ALL_PROCESSES = 0x40000000  # waits for processes of each kind
# where registers stand among those of a process: a call's answer, its first two words, the next instruction, the stack
ANSWER, FIRST, SECOND, NEXT, STACK = 10, 14, 13, 16, 19
REGISTERS = ctypes.c_ulonglong * 27
ENTRY = 9  # the address where the program begins, among what Linux tells a program of itself
SYMBOLS = 2  # the kind of the section that has the names

PTRACE = ctypes.CDLL(None, use_errno=True).ptrace
PTRACE.restype, PTRACE.argtypes = ctypes.c_long, [ctypes.c_long, ctypes.c_long, ctypes.c_void_p, ctypes.c_void_p]


def trace(request, process, data=None):
    """Asks Linux something about a process that is traced.

    Raises common.NoTrace where it refuses.
    """
    if PTRACE(request, process, None, data) == -1:
        raise common.NoTrace(f"ptrace: {os.strerror(ctypes.get_errno())}")


def wait(process):
    """The status with which a process stops or ends."""
    return os.waitpid(process, ALL_PROCESSES)[1]


def symbols(image):
    """The addresses of the functions in a program of ELF, by their names."""
    start, = struct.unpack_from("<Q", image, 40)
    size, count = struct.unpack_from("<HH", image, 58)
    sections = [struct.unpack_from("<IIQQQQIIQQ", image, start + size * place) for place in range(count)]
    found = {}
    for _name, kind, _flags, _address, offset, length, link, _info, _alignment, each in sections:
        for at in range(offset, offset + length, each) if kind == SYMBOLS else []:
            name, _info, _other, _section, address = struct.unpack_from("<IBBHQ", image, at)
            begin = sections[link][4] + name
            found[image[begin:image.index(b"\0", begin)]] = address
    return found


class Files:
    """The standard input, output and error of a program, which are files. Their places are set back after each end."""

    def __init__(self, given, room):
        how = os.O_RDWR | os.O_CREAT | os.O_TRUNC
        self.numbers = [os.open(given, os.O_RDONLY), *(os.open(room / name, how, 0o600) for name in ("out", "err"))]

    def take(self):
        """The places of the files."""
        return [os.lseek(number, 0, os.SEEK_CUR) for number in self.numbers]

    def set_back(self, places):
        """Sets the files back to places, and takes away what was written behind them."""
        for number, place in zip(self.numbers, places):
            os.lseek(number, place, os.SEEK_SET)
        for number, place in list(zip(self.numbers, places))[1:]:
            os.ftruncate(number, place)

    def answer(self, status):
        """What was written, with a status of a process that has ended."""
        out, err = (os.pread(number, os.fstat(number).st_size, 0).decode(errors="backslashreplace")
                    for number in self.numbers[1:])
        return common.Answer(out, err.removesuffix("\n"), os.waitstatus_to_exitcode(status))

    def close(self):
        """Closes the files."""
        for number in self.numbers:
            os.close(number)


class Program:
    """A program whose growths can be refused.

    Raises common.LeftOut where it is no program of the toolchain with names.
    """

    def __init__(self, path, room):
        self.path, self.room = path, room
        image = path.read_bytes()
        self.entry, = struct.unpack_from("<Q", image, 24)
        known = symbols(image)
        if not all(name in known for name in ASKING):
            raise common.LeftOut(f"{path} does not name {ASKING}")
        self.addresses = [known[name] for name in ASKING]

    def answers(self, *words, given=os.devnull, numbers=None):
        """The number of each growth, from 1 on, with what the program answers to words and a file as its standard input
        where it is refused: of all growths, or of those with these numbers. At last the number behind all growths, with
        the answer where none is refused.

        Raises common.NoTrace where Linux refuses that the program is traced.
        """
        files = Files(given, self.room)
        process = os.fork()
        if process == 0:
            become([self.path, *map(str, words)], files)
        try:
            if not os.WIFSTOPPED(wait(process)):
                raise common.NoTrace(f"{self.path} cannot be traced")
            traced = Traced(process, self.entry, self.addresses)
            status, asked = yield from traced.refusals(files, numbers)
            yield asked + 1, files.answer(status)
        finally:
            files.close()


class Traced:
    """A process that is about to begin a program, with breakpoints where it asks for memory."""

    def __init__(self, process, entry, addresses):
        self.process = process
        trace(SET_OPTIONS, process, TRACE_CLONES | END_WITH_US)
        with open(f"/proc/{process}/auxv", "rb") as told:
            moved = dict(struct.iter_unpack("<QQ", told.read()))[ENTRY] - entry
        self.memory = os.open(f"/proc/{process}/mem", os.O_RDWR)
        self.own = {moved + address: os.pread(self.memory, 2, moved + address) for address in addresses}
        for address in self.own:
            os.pwrite(self.memory, BREAKPOINT, address)

    def refusals(self, files, numbers):
        """The growths of these numbers, or all, with the answers where they are refused. Answers the status with which
        the process ends, and how many growths it had.
        """
        passed_on = asked = 0
        while True:
            trace(GO_ON, self.process, passed_on)
            status = wait(self.process)
            if not os.WIFSTOPPED(status):
                os.close(self.memory)
                return status, asked
            passed_on = 0 if os.WSTOPSIG(status) == signal.SIGTRAP else os.WSTOPSIG(status)
            if passed_on:
                continue
            asked += 1
            here = REGISTERS()
            trace(GET_REGISTERS, self.process, here)
            here[NEXT] -= 1
            if numbers is None or asked in numbers:
                places = files.take()
                yield asked, files.answer(self.run_refused(here))
                files.set_back(places)
            self.step_over(here)

    def run_refused(self, here):
        """Forks the process, which is about to ask for memory with these registers. The new one gets none and runs to
        its end; answers its status.
        """
        other = self.fork(here)
        memory = os.open(f"/proc/{other}/mem", os.O_RDWR)
        for address, code in self.own.items():
            os.pwrite(memory, code, address)
        os.close(memory)
        registers = REGISTERS(*here)
        registers[NEXT], = struct.unpack("<Q", os.pread(self.memory, 8, here[STACK]))
        registers[STACK] += 8
        registers[ANSWER] = 0
        trace(SET_REGISTERS, other, registers)
        passed_on = 0
        while True:
            trace(GO_ON, other, passed_on)
            status = wait(other)
            if not os.WIFSTOPPED(status):
                return status
            passed_on = os.WSTOPSIG(status)

    def fork(self, here):
        """Makes the process fork where it stands. Answers the new one, which has stopped."""
        registers = REGISTERS(*here)
        registers[ANSWER], registers[FIRST], registers[SECOND] = CLONE, TO_PARENT, 0
        os.pwrite(self.memory, SYSTEM_CALL, here[NEXT])
        trace(SET_REGISTERS, self.process, registers)
        trace(GO_ON, self.process)
        wait(self.process)
        other = ctypes.c_ulong()
        trace(GET_MESSAGE, self.process, ctypes.byref(other))
        trace(STEP, self.process)
        wait(self.process)
        wait(other.value)
        return other.value

    def step_over(self, here):
        """Runs the first instruction of the function that asks for memory, with these registers."""
        os.pwrite(self.memory, self.own[here[NEXT]], here[NEXT])
        trace(SET_REGISTERS, self.process, here)
        trace(STEP, self.process)
        wait(self.process)
        os.pwrite(self.memory, BREAKPOINT, here[NEXT])


def become(command, files):
    """Turns the process that was made for it into the program, which is traced and has a limit of time."""
    try:
        for number, file in enumerate(files.numbers):
            os.dup2(file, number)
        resource.setrlimit(resource.RLIMIT_CPU, (common.SECONDS, common.SECONDS))
        trace(TRACED, 0)
        os.execv(command[0], command)
    finally:
        os._exit(127)
