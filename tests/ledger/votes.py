"""What `bagpaxos audit` prints of cells, by the rules of docs/AUDIT.md: from the lines of their
journals, which `journal.py` reads, a plain count of votes. No test of itself."""
import itertools
import re
from typing import NamedTuple

import journal

# The most records that a site may have appended and not synced: those of a batch.
UNSYNCED = 64


class Cell(NamedTuple):
    """A cell at a path; whether a site holds its lock, and how many bytes are synced, where that
    site says so; and whether its file can be synced."""

    path: object
    bytes: bytes
    in_use: bool = False
    syncs: bool = True
    synced: object = None

    def sure(self, records):
        """How many of these records are sure to outlive a crash."""
        if not self.in_use:
            return records
        return max(records - UNSYNCED, self.within())

    def within(self):
        """How many records end within what the site says is synced: none, where the cell has
        fewer bytes, or no record or header ends there."""
        if self.synced is None or self.synced > len(self.bytes):
            return 0
        lines, _ = journal.journal(self.bytes[: self.synced])
        if not lines or re.match("torn|damaged|open", lines[-1]):
            return 0
        return len(lines) - 1


class Version:
    """The votes and known bags that count for one version."""

    def __init__(self):
        self.votes, self.known = {}, set()

    def hears(self, site, kind, words):
        if kind == "vote":
            round, of, bag = words
            self.votes.setdefault((int(round), int(of), bag), set()).add(site)
        if kind == "known":
            self.known.add(words[0])

    def chosen(self, weights):
        """The votes that members with more than half of all weight have."""
        weight = lambda voters: sum(weights[it - 1] for it in voters)
        return [it for it, voters in self.votes.items() if 2 * weight(voters) > sum(weights)]

    def lines(self, name, weights):
        """What may be printed of it: of several ballots, or pairs that conflict, any one."""
        chosen = self.chosen(weights)
        bags = self.known | {bag for *_, bag in chosen}
        if not bags:
            return {f"open {name}"}
        if len(bags) > 1:
            pairs = itertools.permutations(bags, 2)
            return {f"conflict {name} {one} {two}" for one, two in pairs}
        if chosen:
            return {f"chosen {name} {bag} {round} {site}" for round, site, bag in chosen}
        return {f"known {name} {bag}" for bag in bags}


class Audit:
    """What has to be printed of these cells, for members of these weights."""

    def __init__(self, federation, weights, cells):
        self.federation, self.weights = federation, list(weights)
        self.in_use = [f"in-use {journal.escaped(str(it.path))}" for it in cells if it.in_use]
        self.defects, self.versions = [], {}
        for cell in cells:
            self.counts(cell)

    def counts(self, cell):
        """Counts what can be counted of a cell, and notes what is amiss with it."""
        path = journal.escaped(str(cell.path))
        lines, _ = journal.journal(cell.bytes)
        if not cell.syncs or not lines or not lines[0].startswith("cell "):
            self.defects.append(f"unread {path}")
            return
        head, *records = lines
        ending = records.pop() if re.match("torn|damaged", lines[-1]) else ""
        if not self.is_members(head, records):
            self.defects.append(f"foreign {path}")
            return
        if ending.startswith("damaged"):
            self.defects.append(f"damaged {path} {ending.split()[1]}")
        for line in records[: cell.sure(len(records))]:
            kind, object, version, *words = line.split(" ")
            slot = self.versions.setdefault(f"{object} {version}", Version())
            slot.hears(int(head.split()[2]), kind, words)

    def is_members(self, head, records):
        """Whether the cell is of a member of the federation. Where it names no weights, all are 1:
        of a cell without records they say nothing."""
        federation, site, *weights = map(int, head.split(" ")[1:])
        if federation != self.federation or site > len(self.weights):
            return False
        if weights:
            return weights == self.weights
        return not records or set(self.weights) == {1}

    def allowed(self):
        """What may be printed of each version, in order."""
        return [it.lines(name, self.weights) for name, it in self.versions.items()]

    def mistakes(self, printed, status):
        """What isn't right of what was printed: nothing, if all is."""
        first = self.in_use + self.defects
        lines = printed.splitlines()
        found = [f"{lines[:len(first)]} and not {first}"] if lines[: len(first)] != first else []
        *said, last = lines[len(first) :] or [""]
        for line, wanted in itertools.zip_longest(said, self.allowed(), fillvalue=()):
            if line not in wanted:
                found.append(f"{line} and not one of {sorted(wanted)}")
        words = [it.split(" ")[0] for it in said]
        totals = [words.count(it) for it in ("chosen", "known", "open", "conflict")]
        sums = "{} chosen, {} known, {} open, {} conflicts".format(*totals)
        if last != sums:
            found.append(f"{last} and not {sums}")
        if status != int(bool(self.defects or totals[3])):
            found.append(f"status {status}")
        return found
