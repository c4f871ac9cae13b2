"""Datagrams and journals as docs/FORMATS.md has them. No test of itself."""
import hashlib
from typing import NamedTuple

FEDERATION = 7
BALLOT_BYTES = 5
CHECKSUM_BYTES = 8
OLD_HEADER_BYTES = 13
# The kinds of datagrams, and of records.
PREPARE, PROMISE, ACCEPT, ACCEPTED, REFUSED, ASK, KNOWN = range(1, 8)
DEPOSIT, QUERY, RECOVER, DEPOSIT_REPLY, QUERY_REPLY = 16, 17, 18, 32, 33
DEPOSITED, ROUND, PROMISED, VOTED, LEARNED = range(1, 6)
# A client deposits the folder `x` as version 1 of the object `a`, or asks for its bag: in hex.
DEPOSITS_X = "4250021000000000000000070001610000000100017851c96259d5fef935"
QUERIES = "425002110000000000000007000161000000019a94461badd1ee50"
# The SHA-512 of no bytes: the identity of the bag without a file.
EMPTY_BAG = (
    "cf83e1357eefb8bdf1542850d66d8007d620e4050b5715dc83f4a921d36ce9ce"
    "47d0d13c5d85f2b0ff8318d2877eec2f63b931bd47417a81a538327af927da3e"
)


class Message(NamedTuple):
    """A datagram's parts: its sender is 0 for a client."""

    kind: int
    sender: int
    object: str
    version: int
    body: bytes = b""

    def bytes(self):
        name = self.object.encode()
        head = b"BP\x02" + bytes([self.kind]) + FEDERATION.to_bytes(8, "big")
        head += bytes([self.sender, len(name)]) + name
        return sealed(head + self.version.to_bytes(4, "big") + self.body)


class Record(NamedTuple):
    """A record of a journal."""

    kind: int
    object: str
    version: int
    body: bytes


def sealed(bytes):
    """The bytes, and their checksum."""
    return bytes + hashlib.sha256(bytes).digest()[:CHECKSUM_BYTES]


def sealed_digits(digits):
    """The same, in hex."""
    return sealed(bytes.fromhex(digits)).hex()


def message(datagram):
    """The message of a datagram of this federation."""
    assert datagram[:3] == b"BP\x02" and datagram[4:12] == FEDERATION.to_bytes(8, "big")
    assert sealed(datagram[:-CHECKSUM_BYTES]) == datagram
    name, version, body = named(datagram[13:-CHECKSUM_BYTES])
    return Message(datagram[3], datagram[12], name, version, body)


def named(bytes):
    """An object and a version, and what follows."""
    end = 1 + bytes[0]
    name, version = bytes[1:end].decode(), int.from_bytes(bytes[end : end + 4], "big")
    return name, version, bytes[end + 4 :]


def ballot(round, site):
    return round.to_bytes(4, "big") + bytes([site])


# What may come for a version of an object that nobody has, by its kind.
FOR_NOBODY = {
    "Query": lambda name: Message(QUERY, 0, name, 1),
    "Recover": lambda name: Message(RECOVER, 0, name, 1),
    "Ask": lambda name: Message(ASK, 2, name, 1),
    "Refused": lambda name: Message(REFUSED, 2, name, 1, ballot(1, 1) + ballot(5, 2)),
    "Accepted": lambda name: Message(ACCEPTED, 2, name, 1, ballot(5, 2) + bytes(64)),
    "Prepare": lambda name: Message(PREPARE, 2, name, 1, ballot(5, 2)),
}


def of_each_kind(site, bag, object="a"):
    """A message of each kind that this site may send, of version 1 of the object."""
    vote = ballot(5, site) + bag
    bodies = {
        PREPARE: ballot(5, site),
        PROMISE: ballot(5, 1) + b"\0",
        ACCEPT: vote,
        ACCEPTED: vote,
        REFUSED: ballot(5, 1) + ballot(6, site),
        ASK: b"",
        KNOWN: bag,
    }
    return [Message(kind, site, object, 1, body) for kind, body in bodies.items()]


def of_clients(path, object="a"):
    """A message of each kind that a client may send, of version 1 of the object."""
    asked = [Message(kind, 0, object, 1) for kind in (QUERY, RECOVER)]
    return [*asked, deposit(object, 1, path)]


def deposit(object, version, path):
    """A client's deposit of the folder of this path."""
    path = str(path).encode()
    return Message(DEPOSIT, 0, object, version, len(path).to_bytes(2, "big") + path)


def header_at(journal, at, digit):
    """Whether a header of this layout begins here."""
    return journal[at : at + 12] == b"BPJ" + digit + FEDERATION.to_bytes(8, "big")


def records(journal):
    """The records of a whole journal; those that were carried over have no checksum."""
    at = OLD_HEADER_BYTES if header_at(journal, 0, b"1") else 0
    assert at or header_at(journal, 0, b"2")
    found, is_sealed = [], False
    while at < len(journal):
        if not is_sealed and header_at(journal, at, b"2"):
            at, is_sealed = at + OLD_HEADER_BYTES + 1 + journal[at + OLD_HEADER_BYTES], True
            continue
        end = at + 2 + int.from_bytes(journal[at : at + 2], "big")
        assert end <= len(journal)
        found.append(record(journal[at:end], is_sealed))
        at = end
    return found


def record(bytes, is_sealed):
    before = bytes[:-CHECKSUM_BYTES] if is_sealed else bytes
    assert not is_sealed or sealed(before) == bytes
    return Record(before[2], *named(before[3:]))
