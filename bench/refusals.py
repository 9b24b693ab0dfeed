"""Runs a program and refuses one of its requests for memory, as a debugger would, on Linux with x86-64.

The program must be built by Rattle: it requests memory in `rattle_alloc` and `rattle_realloc`, and breakpoints of the processor stop it
there. The request to refuse is changed to a size that no machine has, so the C library refuses it. The rest of the run is unchanged. The
requests of other threads are not observed.
"""

import ctypes
import functools
import os
import resource
import signal
import struct
import subprocess
import tempfile
from dataclasses import dataclass

# The functions in which a program requests memory, and the register that holds the size.
SIZES = {"rattle_alloc": "rdi", "rattle_realloc": "rdx"}
TOO_MUCH = 1 << 62

# A run that takes more processor time than this is ended by a signal.
SECONDS = 60

# The requests of ptrace, and the offset of the debug registers.
TRACE_ME, SET_WORD, CONTINUE, GET_REGISTERS, SET_REGISTERS, DETACH = 0, 6, 7, 12, 13, 17
PLACES, SWITCHES = 848, 848 + 7 * 8
NAMES = "r15 r14 r13 r12 rbp rbx r11 r10 r9 r8 rax rcx rdx rsi rdi orig_rax rip cs eflags rsp ss fs_base gs_base ds es fs gs"

LIBRARY = ctypes.CDLL(None, use_errno=True)
LIBRARY.ptrace.argtypes = [ctypes.c_long, ctypes.c_long, ctypes.c_void_p, ctypes.c_void_p]
LIBRARY.ptrace.restype = ctypes.c_long


class Registers(ctypes.Structure):
    _fields_ = [(name, ctypes.c_ulonglong) for name in NAMES.split()]


@dataclass(frozen=True)
class Ending:
    """How a run ended: with the status of the program, or with the negated number of the signal that ended it."""

    status: int
    output: bytes
    errors: bytes


def count_requests(words, folder):
    """The number of requests that the program makes if none is refused, and how it ends."""
    with Run(words, folder) as run:
        requests = 0
        while run.goes_to_request():
            requests += 1
        return requests, run.end()


def end_refusing(number, words, folder):
    """How the program ends if its request with this number, counted from 1, is refused."""
    with Run(words, folder) as run:
        if all(run.goes_to_request() for _ in range(number)):
            run.refuse()
        return run.end()


class Run:
    """A run of a program that stops at each request for memory."""

    def __init__(self, words, folder):
        found = places(words[0])
        self.output, self.errors = tempfile.TemporaryFile(), tempfile.TemporaryFile()
        self.process = subprocess.Popen(
            words, cwd=folder, stdin=subprocess.DEVNULL, stdout=self.output, stderr=self.errors, preexec_fn=be_traced
        )
        self.wait()
        start = start_of(words[0], self.process.pid)
        self.sizes = {start + place: SIZES[name] for name, place in found.items()}
        for index, place in enumerate(self.sizes):
            self.trace(SET_WORD, place, at=PLACES + 8 * index)
        self.trace(SET_WORD, sum(1 << 2 * index for index in range(len(self.sizes))), at=SWITCHES)

    def __enter__(self):
        return self

    def __exit__(self, *_):
        if self.process.returncode is None:
            os.kill(self.process.pid, signal.SIGKILL)
            self.end()
        self.output.close()
        self.errors.close()

    def goes_to_request(self):
        """Lets it run to its next request, before the request is answered, and says whether there is one."""
        passed_on = 0
        while True:
            self.trace(CONTINUE, passed_on)
            passed_on = self.wait()
            if passed_on in (None, signal.SIGTRAP):
                return passed_on is not None

    def refuse(self):
        """Changes the present request to one for too much memory, and observes no further request."""
        registers = Registers()
        self.trace(GET_REGISTERS, ctypes.addressof(registers))
        setattr(registers, self.sizes[registers.rip], TOO_MUCH)
        self.trace(SET_REGISTERS, ctypes.addressof(registers))
        self.trace(SET_WORD, 0, at=SWITCHES)
        self.trace(DETACH)

    def end(self):
        """Lets it run to its end, unless it has ended."""
        while self.process.returncode is None:
            self.wait()
        self.output.seek(0)
        self.errors.seek(0)
        return Ending(self.process.returncode, self.output.read(), self.errors.read())

    def wait(self):
        """The signal at which it stops, or None if it ends."""
        _, status = os.waitpid(self.process.pid, 0)
        if os.WIFSTOPPED(status):
            return os.WSTOPSIG(status)
        self.process.returncode = os.waitstatus_to_exitcode(status)
        return None

    def trace(self, request, data=0, at=0):
        trace(request, self.process.pid, at, data)


def be_traced():
    resource.setrlimit(resource.RLIMIT_CPU, (SECONDS, SECONDS))
    trace(TRACE_ME)


def trace(request, number=0, at=0, data=0):
    if LIBRARY.ptrace(request, number, at, data) < 0:
        error = ctypes.get_errno()
        raise OSError(error, os.strerror(error))


def start_of(program, number):
    """The address of the program's file in the memory of the process."""
    program = os.path.realpath(program)
    with open(f"/proc/{number}/maps", encoding="utf-8") as maps:
        return min(int(line.split("-")[0], 16) for line in maps if line.rstrip("\n").endswith(f" {program}"))


@functools.cache
def places(program):
    """The offsets of the requests for memory in the file of a program."""
    with open(program, "rb") as file:
        code = file.read()
    found = {name: place for name, place in symbols(code) if name in SIZES}
    if missing := set(SIZES) - set(found):
        raise ValueError(f"{program} has no {' and no '.join(sorted(missing))}")
    return found


def symbols(code):
    """The names and addresses of a program in the format ELF, for 64 bits."""
    headers = list(sections(code))
    for kind, at, size, link in headers:
        if kind != 2:
            continue
        for name, _, _, _, place, _ in struct.iter_unpack("<IBBHQQ", code[at : at + size]):
            start = headers[link][1] + name
            yield code[start : code.index(b"\0", start)].decode("utf-8", "replace"), place


def sections(code):
    """The kind, offset, size and link of each section. A table of symbols has the kind 2, and links to the section of their names."""
    (at,) = struct.unpack_from("<Q", code, 40)
    size, count = struct.unpack_from("<HH", code, 58)
    for index in range(count):
        _, kind, _, _, place, length, link = struct.unpack_from("<IIQQQQI", code, at + index * size)
        yield kind, place, length, link
