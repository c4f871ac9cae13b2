"""Runs a program with one of its calls for memory failing. It stops at each of them under ptrace
(Linux on x86-64): these are the calls of its functions `rattle_alloc` and `rattle_realloc`. No test
of itself."""
import ctypes
import errno
import functools
import os
import pathlib
import shlex
import signal
import struct
from typing import NamedTuple

ALLOCATORS = ("rattle_alloc", "rattle_realloc")
# The requests of ptrace, one of its options, and the registers that it gives: these of 27, of 8
# bytes each.
TRACEME, CONT, GETREGS, SETREGS, SYSCALL, SETOPTIONS, SYSGOOD = 0, 7, 12, 13, 24, 0x4200, 1
REGISTERS, RAX, RDI, CALL, RIP, RSP = ctypes.c_uint64 * 27, 10, 14, 15, 16, 19
# The system's call that receives a datagram, and what is in RAX where a call only begins.
RECVFROM, BEGINS = 45, 2**64 - errno.ENOSYS
# Each function begins with an instruction of four bytes that does nothing (endbr64). In its place
# comes one that stops, and one that does nothing again.
BEGINNING, STOP = b"\xf3\x0f\x1e\xfa", b"\xcc\x0f\x1f\x00"
# Sections of ELF with symbols, and the type of a file that is loaded where it says.
SYMBOLS, FIXED = (2, 11), 2

LIBRARY = ctypes.CDLL(None, use_errno=True)
LIBRARY.ptrace.argtypes = [ctypes.c_long, ctypes.c_long, ctypes.c_void_p, ctypes.c_void_p]
LIBRARY.ptrace.restype = ctypes.c_long


def ptrace(request, process, argument=None):
    """Calls ptrace, whose address is 0 in all of these."""
    if LIBRARY.ptrace(request, process, None, argument) == -1:
        number = ctypes.get_errno()
        raise OSError(number, f"ptrace {request}: {os.strerror(number)}")


class Binary(NamedTuple):
    """Where the functions of an ELF file are, from its start in memory, or from 0."""

    is_fixed: bool
    places: dict


@functools.lru_cache
def binary(path):
    """What the file of a program or a library says."""
    bytes = pathlib.Path(path).read_bytes()
    start, (size, count) = *struct.unpack_from("<Q", bytes, 40), struct.unpack_from("<HH", bytes, 58)
    sections = [struct.unpack_from("<IIQQQQII", bytes, start + size * it) for it in range(count)]
    places = {}
    for _, kind, _, _, begin, length, link, _ in sections:
        for at in range(begin, begin + length, 24) if kind in SYMBOLS else ():
            name, _, _, _, place, _ = struct.unpack_from("<IBBHQQ", bytes, at)
            from_here = sections[link][4] + name
            places.setdefault(bytes[from_here : bytes.index(b"\0", from_here)].decode(), place)
    return Binary(struct.unpack_from("<H", bytes, 16)[0] == FIXED, places)


class Ran(NamedTuple):
    """How a run ended: whether that call failed, the status, and what was printed; at which calls
    there were marks, and how many calls there were up to the one that failed, or the end."""

    has_failed: bool
    status: int
    said: bytes
    marks: list
    calls: int


class Traced:
    """A process that is traced, from its first instruction on."""

    def __init__(self, words, input, said, error=os.devnull):
        self.process = os.fork()
        if self.process == 0:
            begin(words, input, said, error)
        os.waitpid(self.process, 0)
        ptrace(SETOPTIONS, self.process, SYSGOOD)
        self.memory = os.open(f"/proc/{self.process}/mem", os.O_RDWR)
        self.registers, self.status = REGISTERS(), None

    def place_of(self, file, name):
        """Where a function of this file is, which is loaded."""
        known = binary(file)
        if known.is_fixed:
            return known.places[name]
        lines = pathlib.Path(f"/proc/{self.process}/maps").read_text().splitlines()
        first = next(it for it in lines if it.endswith(os.path.realpath(file)))
        return int(first.partition("-")[0], 16) + known.places[name]

    def stop_at(self, place):
        """It is to stop at this function."""
        if os.pread(self.memory, 4, place) != BEGINNING:
            raise ValueError(f"at {place:#x} no function begins as this test has it")
        os.pwrite(self.memory, STOP, place)

    def stop_no_more_at(self, place):
        """It isn't to stop there any more."""
        os.pwrite(self.memory, BEGINNING, place)

    def stops(self, waiting):
        """Goes on to the next of these places; whether there is one, or the process has ended.
        `waiting` is called, where there is such, each time before a datagram is received."""
        number = 0
        while True:
            ptrace(SYSCALL if waiting else CONT, self.process, number)
            self.status = os.waitpid(self.process, 0)[1]
            if not os.WIFSTOPPED(self.status):
                return False
            number = os.WSTOPSIG(self.status)
            if number == signal.SIGTRAP:
                return True
            if number == signal.SIGTRAP | 0x80:
                number = 0
                self.look()
                if (self.registers[CALL], self.registers[RAX]) == (RECVFROM, BEGINS):
                    waiting()

    def look(self):
        """Reads the registers."""
        ptrace(GETREGS, self.process, ctypes.addressof(self.registers))

    def returns_null(self):
        """Returns from the function at whose beginning it has stopped."""
        self.look()
        self.registers[RAX] = 0
        back = os.pread(self.memory, 8, self.registers[RSP])
        self.registers[RIP] = int.from_bytes(back, "little")
        self.registers[RSP] += 8
        ptrace(SETREGS, self.process, ctypes.addressof(self.registers))

    def end(self):
        """The status; None where a signal ended it."""
        os.close(self.memory)
        return os.WEXITSTATUS(self.status) if os.WIFEXITED(self.status) else None


def begin(words, input, said, error):
    """Becomes the program, in a new process."""
    try:
        written = os.O_WRONLY | os.O_CREAT | os.O_TRUNC
        files = [(input, os.O_RDONLY), (said, written), (error, written)]
        for number, (file, how) in enumerate(files):
            os.dup2(os.open(file, how, 0o644), number)
        ptrace(TRACEME, 0)
        os.execv(words[0], [str(it) for it in words])
    finally:
        os._exit(127)


def run(program, words, said, failing, input=os.devnull, mark=0, waiting=None):
    """Runs the program with these words, as a shell splits them, and the call for memory of this
    number failing, from 1 on. What it prints comes into the file `said`. Calls for as many bytes as
    `mark` are marks. `waiting` is called each time before a datagram is received."""
    traced = Traced([program, *shlex.split(words)], input, said)
    allocators = {traced.place_of(program, it) for it in ALLOCATORS}
    for it in allocators:
        traced.stop_at(it)
    calls, marks, has_failed = 0, [], False
    while traced.stops(waiting):
        calls += 1
        if mark:
            traced.look()
            marks += [calls] if traced.registers[RDI] == mark else []
        if calls == failing:
            has_failed = True
            for it in allocators:
                traced.stop_no_more_at(it)
            traced.returns_null()
    return Ran(has_failed, traced.end(), pathlib.Path(said).read_bytes(), marks, calls)
