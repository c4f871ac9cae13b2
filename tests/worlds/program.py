"""The program under test, the schedules that it runs, and what it says of each slot.

A schedule has many worlds: world i is version i of the object `a`. A restart is one of all slots,
so the worlds of a schedule have theirs at one moment, or all have none. The numbers of a world's
datagrams are known, since it is known how many each of its events sends.
"""
import hashlib
import subprocess
from typing import NamedTuple

from world import DELIVER, RESTART, Datagram

DECLARATION = b"BagIt-Version: 1.0\nTag-File-Character-Encoding: UTF-8\n"
MANIFESTS = (b"", b"\n")
BAGS = {hashlib.sha512(it).hexdigest() for it in MANIFESTS}
# Where a datagram has the version, in hex digits: the object is of one byte.
VERSION = slice(30, 38)
# And where its checksum begins, which follows from the bytes before it.
CHECKSUM = -16


class Wrong(Exception):
    """The program says what it may not say. `lines` is a schedule that shows it."""

    def __init__(self, why, lines):
        super().__init__(why)
        self.lines = lines


class Said(NamedTuple):
    """What was said of a slot: the datagrams that were sent, and the words of the other lines."""

    sent: list
    reports: list


def opening(sites):
    """The federation, and two bags: the trees 1 and 2."""
    lines = [f"federation 7 {sites}"]
    for tree, manifest in enumerate(MANIFESTS, 1):
        lines += [f"tree {tree}", f"folder {tree}", f"file {tree} bagit.txt {DECLARATION.hex()}"]
        lines.append(f"file {tree} manifest-sha512.txt {manifest.hex() or '-'}")
    return lines


class Schedule:
    """A schedule of worlds that have the same restart, or none."""

    def __init__(self, sites, worlds):
        self.sites, self.worlds, self.sent = sites, worlds, 0
        self.numbers = [[] for _ in worlds]
        self.lines = opening(sites)
        slots = range(1, len(worlds) + 1)
        self.lines += [f"deposit {it} {it} a {slot}" for slot in slots for it in (1, 2)]
        for slot, world in enumerate(worlds):
            self.play(slot, slice(0, world.restarted[1]))
        for word in ("stop", "start"):
            self.lines += [f"{word} {site}" for site in worlds[0].restarted[0]]
        for slot, world in enumerate(worlds):
            self.play(slot, slice(world.restarted[1], None))

    def play(self, slot, part):
        """Adds some of a world's events but for its restart."""
        world = self.worlds[slot]
        for event, count in zip(world.events[part], world.counts[part]):
            if event.word != RESTART:
                self.add(slot, event)
            self.numbers[slot] += range(self.sent + 1, self.sent + count + 1)
            self.sent += count

    def add(self, slot, event):
        if event.word == DELIVER:
            self.lines.append(f"deliver {self.numbers[slot][event.argument]}")
        else:
            self.lines.append(f"{event.word} {event.argument} a {slot + 1}")

    def close(self):
        """Each site hears all votes, its own first; then all arrives that hasn't yet, and each site
        says what it knows."""
        for slot, world in enumerate(self.worlds):
            votes = [(number, it) for number, it in enumerate(world.sent) if it.is_vote]
            for number, vote in sorted(votes, key=lambda it: it[1].sender != it[1].to):
                self.lines.append(f"deliver {self.numbers[slot][number]}")
        self.lines.append(f"pump {self.sent + 60 * len(self.worlds)}")
        slots = range(1, len(self.worlds) + 1)
        sites = range(1, self.sites + 1)
        self.lines += [f"query {site} a {slot}" for slot in slots for site in sites]


class Program:
    """The program under test, and how much it has run."""

    def __init__(self, command):
        self.command, self.runs, self.commands = command, 0, 0

    def said_of_each(self, schedules):
        """Each schedule, and what the program says of each slot of it."""
        for schedule in schedules:
            yield schedule, self.said(schedule.lines, len(schedule.worlds))

    def said(self, lines, slots=1):
        """What it says of each slot."""
        text = "".join(f"{it}\n" for it in lines)
        ran = subprocess.run(self.command, input=text, capture_output=True, text=True)
        if ran.returncode:
            raise Wrong(f"status {ran.returncode}: {(ran.stdout + ran.stderr)[-300:]}", lines)
        return self.read(lines, ran.stdout, slots)

    def read(self, lines, printed, slots):
        """What was printed of each slot."""
        self.runs += 1
        self.commands += len(lines)
        said = [Said([], []) for _ in range(slots)]
        for line in printed.splitlines():
            word, *words = line.split()
            if word == "sent":
                digits = words[3]
                text = digits[: VERSION.start] + digits[VERSION.stop : CHECKSUM]
                said[int(digits[VERSION], 16) - 1].sent.append(Datagram(int(words[2]), text))
            elif word in ("registered", "known", "reply"):
                said[int(words[2]) - 1].reports.append([word, *words])
            elif word == "dropped" or word == "skip" and words[1] != "up":
                raise Wrong(line, lines)
        return said
