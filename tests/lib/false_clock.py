"""Runs a program whose clocks say what a test wants. Under ptrace (Linux on x86-64) it stops where
it would ask the C library for the time, at each call of the system, and where it would wait: a
sleep takes no time, nor does a poll, but the clock goes on by as much. So the moment at which
something is said, or asked, is known to the nanosecond. No test of itself."""
import os
import pathlib
import struct
import sys
from typing import NamedTuple

sys.dont_write_bytecode = True
sys.path.insert(0, str(pathlib.Path(__file__).resolve().parent))

import failing_allocation
from failing_allocation import CALL, RAX, RDI, RIP, RSP, SETREGS, SYSCALL, Traced, ptrace

RDX, RSI = 12, 13
# The numbers of calls of the system.
READ, WRITE, POLL, SENDTO, RECVFROM, BIND, FLOCK, FSYNC = 0, 1, 7, 44, 45, 49, 73, 74
FTRUNCATE, GETDENTS = 77, 217
CLOCK_NANOSLEEP, OPENAT, STATX = 230, 257, 332
# What stands in place of the call that is asked for, so that none is made.
NO_CALL = 2**64 - 1
# The clock that is set; and when another began, by which a test's moments are.
REALTIME, BEGAN = 0, 86_400 * 10**9
SECOND, MILLI = 10**9, 10**6
# By the clock that is set it is this moment then, in seconds since 1970.
SINCE_1970 = 1_800_000_000
STOPS_AT = b"\xcc"


class Event(NamedTuple):
    """A call of the system that was made, or a wait that took no time: when it ended, in
    nanoseconds since the beginning, its number, its first three arguments, and its answer; of a
    wait it is how long it was. Of a write, and of a datagram, `bytes` are what was handed over; of
    an opening, or a look at a file, the path."""

    moment: int
    call: int
    arguments: tuple
    answer: int
    bytes: bytes


class FalseClock:
    """A run of a program, by moments that begin with it."""

    def __init__(self, words, input=os.devnull, output=os.devnull, error=os.devnull):
        self.traced = Traced([str(it) for it in words], str(input), str(output), str(error))
        self.words, self.now, self.events, self.loaded = words, 0, [], float("inf")
        # Whether clocks can be read, and which of them can't by itself, by their numbers; what the
        # one that is set says at the beginning; how many bytes a read gives at most, if that is
        # limited; and the error of a call, by its number and its first argument, if it fails.
        self.can_tell, self.untold, self.since, self.most = True, set(), SINCE_1970, None
        self.fails = lambda call, first: 0

    def run(self, costs=lambda event: 0, meanwhile=lambda event: None):
        """Runs it to its end, and gives the status. `costs(event)` says how many nanoseconds a call
        has taken; `meanwhile(event)` is called after each, while the program stands still."""
        traced, number, begun = self.traced, 0, None
        program = os.path.realpath(self.words[0])
        first = traced.place_of(program, failing_allocation.ALLOCATORS[0])
        traced.stop_at(first)
        while True:
            ptrace(SYSCALL, traced.process, number)
            traced.status = os.waitpid(traced.process, 0)[1]
            if not os.WIFSTOPPED(traced.status):
                return traced.end()
            number = os.WSTOPSIG(traced.status)
            if number == 0x85:
                number = 0
                traced.look()
                if begun is None:
                    begun = self.begins()
                else:
                    self.ends(begun, costs, meanwhile)
                    begun = None
            elif number == 5:
                number = 0
                traced.look()
                if traced.registers[RIP] == first + 1:
                    # By now the C library is there.
                    traced.stop_no_more_at(first)
                    traced.registers[RIP] = first
                    ptrace(SETREGS, traced.process, addressof(traced.registers))
                    library, place = self.library()
                    os.pwrite(traced.memory, STOPS_AT, place)
                    self.loaded = len(self.events)
                else:
                    self.tells()

    def library(self):
        """The C library that was loaded, and where it tells the time."""
        lines = pathlib.Path(f"/proc/{self.traced.process}/maps").read_text().splitlines()
        file = next(it.split()[-1] for it in lines if "/libc.so" in it or "/libc-" in it)
        return file, self.traced.place_of(file, "clock_gettime")

    def tells(self):
        """Answers a question for the time in place of the C library."""
        traced, registers = self.traced, self.traced.registers
        asked = registers[RDI] & 0xFFFFFFFF
        began = self.since * SECOND if asked == REALTIME else BEGAN
        time = struct.pack("<qq", *divmod(began + self.now, SECOND))
        os.pwrite(traced.memory, time, registers[RSI])
        traced.returns_null()
        if not self.can_tell or asked in self.untold:
            registers[RAX] = 2**64 - 1
            ptrace(SETREGS, traced.process, addressof(registers))

    def begins(self):
        """A call begins: its number and its arguments. One that would wait isn't made."""
        registers = self.traced.registers
        call, given = registers[CALL], [registers[it] for it in (RDI, RSI, RDX)]
        wait = None
        if call == CLOCK_NANOSLEEP:
            seconds, rest = struct.unpack("<qq", os.pread(self.traced.memory, 16, given[2]))
            wait = seconds * SECOND + rest
        elif call == POLL:
            wait = given[2] * MILLI
        if wait is not None:
            registers[CALL] = NO_CALL
            ptrace(SETREGS, self.traced.process, addressof(registers))
        if call == READ and self.most and len(self.events) > self.loaded:
            registers[RDX] = min(registers[RDX], self.most)
            ptrace(SETREGS, self.traced.process, addressof(registers))
        bytes = b""
        if call in (WRITE, SENDTO):
            bytes = os.pread(self.traced.memory, given[2], given[1])
        elif call in (OPENAT, STATX):
            bytes = os.pread(self.traced.memory, 4096, given[1]).partition(b"\0")[0]
        error = self.fails(call, given[0])
        if error:
            registers[CALL] = NO_CALL
            ptrace(SETREGS, self.traced.process, addressof(registers))
        return call, given, wait, bytes, error

    def ends(self, begun, costs, meanwhile):
        """The call has ended, or its wait is over."""
        (call, given, wait, bytes, error), registers = begun, self.traced.registers
        if error:
            registers[RAX] = 2**64 - error
            ptrace(SETREGS, self.traced.process, addressof(registers))
        answer = registers[RAX] - 2**64 if registers[RAX] >> 63 else registers[RAX]
        if wait is not None:
            registers[RAX], answer = 0, wait
            ptrace(SETREGS, self.traced.process, addressof(registers))
            self.now += wait
        event = Event(self.now, call, tuple(given), answer, bytes)
        self.now += costs(event)
        event = event._replace(moment=self.now)
        self.events.append(event)
        meanwhile(event)


def addressof(registers):
    """Where the registers are."""
    return failing_allocation.ctypes.addressof(registers)
