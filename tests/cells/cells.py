"""Cells to be opened: whole ones, and what chance makes of them."""
import random

import reader
from reader import FRONT, Owner

BAG = b"\xaa" * 64
FEDERATION, SITE = 7, 1
# Sizes, counts and numbers at the ends of their ranges, and beyond.
NUMBERS = [0, 1, 2, 255, 256, 2**32 - 1]
SITES = [0, 1, 2, 3, 63, 64, 255]
OBJECTS = [b"a", b"b", b"\xc3\xa9" * 100, b"x" * 200, b"x" * 201, b"", b"\xff", b"\xed\xa0\x80"]


def number(value):
    return value.to_bytes(4, "big")


def content(kind, body, object=b"a", version=1):
    """The bytes between a length and a checksum."""
    return bytes([kind, len(object)]) + object + number(version) + body


def old_record(content):
    return len(content).to_bytes(2, "big") + content


def record(content):
    before = (len(content) + reader.CHECKSUM).to_bytes(2, "big") + content
    return before + reader.checksum(before)


def old_header(owner):
    return reader.front(owner, reader.OLD_MAGIC)


# A record of each kind.
DEPOSIT, KNOWN = content(1, BAG), content(5, b"\xbb" * 64)
ROUND, PROMISE = content(2, number(1)), content(3, number(1) + b"\1")
VOTE = content(4, number(1) + b"\1" + BAG)
KINDS = [DEPOSIT, ROUND, PROMISE, VOTE, KNOWN]
ONES = Owner(FEDERATION, SITE, [1, 1, 1])
OLD_CELL = old_header(ONES) + old_record(ROUND) + old_record(PROMISE)


class Chance:
    """Random cells, by a seed."""

    def __init__(self, seed):
        self.random = random.Random(seed)

    def is_rare(self, one_in):
        return self.random.randrange(one_in) == 0

    def content(self):
        """That of a record, or now and then of almost one."""
        if self.is_rare(40):
            kind = self.random.randrange(8)
            object, version = self.random.choice(OBJECTS), self.random.choice(NUMBERS)
            body = self.random.randbytes(self.random.choice([0, 3, 4, 5, 63, 64, 65, 68, 69, 70]))
            return content(kind, body, object, version)
        object = self.random.choice(OBJECTS[:4])
        return content(*self.kind_and_body(), object, self.random.randint(1, 9))

    def kind_and_body(self):
        kind, bag = self.random.randint(1, 5), self.random.randbytes(64)
        any_round, any_site = self.random.choice(NUMBERS), self.random.choice(SITES)
        round = number(any_round if self.is_rare(30) else self.random.randint(1, 9))
        site = bytes([any_site if self.is_rare(30) else self.random.randint(1, 3)])
        bodies = {1: bag, 2: round, 3: round + site, 4: round + site + bag, 5: bag}
        return kind, bodies[kind]

    def contents(self):
        return [self.content() for _ in range(self.random.randrange(5))]

    def weights(self):
        """Most often 1, of three members."""
        if self.is_rare(5):
            count = self.random.choice([1, 2, 3, 63])
            return [self.random.choice([1, 1, 2, 255]) for _ in range(count)]
        return [1, 1, 1]

    def owner(self):
        """The owner of a cell: most often of the one that it is opened for."""
        federation = self.random.choice([0, 8, 2**64 - 1]) if self.is_rare(25) else FEDERATION
        site = self.random.choice([2, 63]) if self.is_rare(25) else SITE
        return Owner(federation, site, self.weights())

    def whole(self):
        """A cell of layout 1, of layout 2, or of both: the first carried over."""
        owner, of = self.owner(), self.random.randrange(3)
        old = old_header(owner) + b"".join(map(old_record, self.contents()))
        new = reader.header(owner) + b"".join(map(record, self.contents()))
        return [old, new, old + new][of]

    def mixed(self, cell):
        """The cell with parts of others after it, or among its bytes."""
        part = self.random.choice(
            [reader.header(self.owner()), old_header(self.owner()), self.whole()]
            + [make(self.content()) for make in (old_record, record)]
        )
        place = len(cell) if self.is_rare(2) else self.random.randint(0, len(cell))
        return cell[:place] + part[: self.random.randint(1, len(part))] + cell[place:]

    def changed(self, cell):
        """The cell with one byte changed; most often one of a header or a length."""
        if not cell:
            return cell
        most = self.random.choice([FRONT + 6, len(cell)])
        place = self.random.randrange(min(most, len(cell)))
        turned = cell[place] ^ 1 << self.random.randrange(8)
        byte = self.random.choice([0, 1, 2, 63, 64, 255, turned])
        return cell[:place] + bytes([byte]) + cell[place + 1 :]

    def cell(self):
        """Bytes, and the owner for whom they are opened."""
        cell, change = self.whole(), self.random.randrange(5)
        if change == 1:
            cell = cell[: self.random.randint(0, len(cell))]
        if change == 2:
            cell += self.random.randbytes(self.random.randint(1, 20))
        if change == 3:
            cell = self.changed(cell)
        if change == 4:
            cell = self.mixed(cell)
        return Owner(FEDERATION, SITE, self.weights()), cell
