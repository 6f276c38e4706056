"""What calls of a function take in a program as it was built, and what the memory of its process has when they have ended.

By ptrace, on Linux with x86-64: the process is stopped where each form of the function is entered for the first time, and
where that call returns. In between it runs as ever; the threads that it makes are not looked at.
"""
import ctypes
import os
import pathlib
import platform
import signal
import subprocess
import sys
import time

TRACEME, CONT, GETREGS, SETREGS, SETOPTIONS = 0, 7, 12, 13, 0x4200
KILLED_WITH_US = 1 << 20
BREAKPOINT = b"\xcc"
# The numbers of two registers among the 27 that the kernel tells.
REGISTERS, PLACE, STACK = ctypes.c_ulonglong * 27, 16, 19
IS_RELOCATED = 3

LIBC = ctypes.CDLL(None, use_errno=True)
LIBC.ptrace.argtypes = [ctypes.c_long, ctypes.c_long, ctypes.c_void_p, ctypes.c_void_p]
LIBC.ptrace.restype = ctypes.c_long


def ptrace(request, process, more=None):
    if LIBC.ptrace(request, process, None, more) == -1:
        error = ctypes.get_errno()
        raise OSError(error, os.strerror(error), "ptrace")


class Process:
    """A process that is stopped before its first instruction."""

    def __init__(self, words, stdin=os.devnull, stdout=os.devnull, processors=None):
        self.words = list(map(str, words))
        self.number = os.fork()
        if self.number == 0:
            self.begin(stdin, stdout, processors)
        self.wait()
        ptrace(SETOPTIONS, self.number, KILLED_WITH_US)
        self.memory = os.open(f"/proc/{self.number}/mem", os.O_RDWR)

    def begin(self, stdin, stdout, processors):
        """Becomes the program, in the new process."""
        try:
            os.dup2(os.open(stdin, os.O_RDONLY), 0)
            os.dup2(os.open(stdout, os.O_WRONLY | os.O_CREAT | os.O_TRUNC, 0o644), 1)
            if processors:
                os.sched_setaffinity(0, processors)
            ptrace(TRACEME, 0)
            os.execv(self.words[0], self.words)
        finally:
            os._exit(127)

    def wait(self):
        """Waits for a stop; a signal that is none of ours goes to the process."""
        while True:
            _, status = os.waitpid(self.number, 0)
            if not os.WIFSTOPPED(status):
                raise OSError(f"status {status}, and no stop: {self.words}")
            if os.WSTOPSIG(status) == signal.SIGTRAP:
                return
            ptrace(CONT, self.number, os.WSTOPSIG(status))

    def read(self, at, count):
        return os.pread(self.memory, count, at)

    def word(self, at):
        return int.from_bytes(self.read(at, 8), "little")

    def registers(self):
        found = REGISTERS()
        ptrace(GETREGS, self.number, ctypes.addressof(found))
        return found

    def go_to(self, places):
        """Runs on until it comes to one of these places, and tells which, and the nanoseconds that this took."""
        was = {at: self.read(at, 1) for at in places}
        for at in places:
            os.pwrite(self.memory, BREAKPOINT, at)
        begun = time.monotonic_ns()
        ptrace(CONT, self.number)
        self.wait()
        ended = time.monotonic_ns()
        for at, byte in was.items():
            os.pwrite(self.memory, byte, at)
        registers = self.registers()
        found = registers[PLACE] - len(BREAKPOINT)
        if found not in was:
            raise OSError(f"a stop at another place: {self.words}")
        registers[PLACE] = found
        ptrace(SETREGS, self.number, ctypes.addressof(registers))
        return found, ended - begun

    def end(self):
        """Runs on to its end, which is to have status 0."""
        ptrace(CONT, self.number)
        _, status = os.waitpid(self.number, 0)
        os.close(self.memory)
        if status != 0:
            sys.exit(f"status {status}: {self.words}")

    def regions(self):
        """Where its memory begins and ends that it can write to."""
        for line in pathlib.Path(f"/proc/{self.number}/maps").read_text().splitlines():
            region, rights = line.split()[:2]
            if rights.startswith("rw"):
                yield [int(place, 16) for place in region.split("-")]


def places_of(program, function):
    """Where the function's forms begin in the program's file, one for each choice of its types, by the names that nm tells."""
    told = subprocess.run(["nm", program], check=True, capture_output=True, text=True).stdout
    symbols = [line.split(" ", 2) for line in told.splitlines()]
    places = [place for place, _, name in symbols if name == function or name.startswith(f"{function}::<")]
    if not places:
        sys.exit(f"{program} has no function {function}")
    return [int(place, 16) for place in places]


def base_of(process):
    """What is added to the places of the program's file."""
    program = os.path.realpath(process.words[0])
    with open(program, "rb") as file:
        if int.from_bytes(file.read(18)[16:], "little") != IS_RELOCATED:
            return 0
    lines = pathlib.Path(f"/proc/{process.number}/maps").read_text().splitlines()
    return min(int(line.split("-")[0], 16) for line in lines if line.endswith(program))


def calls_of(places, words, stdin=os.devnull, stdout=os.devnull, look=None, processors=None):
    """Runs the process, and tells the nanoseconds of the first call of each form of a function, together, by their places in
    the program's file; and what `look` finds in the process where the last of them returns."""
    process = Process(words, stdin, stdout, processors)
    base, spent = base_of(process), 0
    left = {base + place for place in places}
    while left:
        entered, _ = process.go_to(left)
        left.discard(entered)
        spent += process.go_to([process.word(process.registers()[STACK])])[1]
    found = look(process) if look else None
    process.end()
    return spent, found


def can_stop():
    """Whether processes can be stopped here."""
    if sys.platform != "linux" or platform.machine() != "x86_64":
        return False
    try:
        Process(["/bin/true"]).end()
    except OSError:
        return False
    return True
