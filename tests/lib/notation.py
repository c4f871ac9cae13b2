"""Datagrams and cells in words, as documents have them between `@{` and `}`: the bytes of words,
and the words of bytes. Written from docs/FORMATS.md ("Datagrams", "Journals"), and from nothing
that the program prints. No test of itself."""
import contextlib
import hashlib
import itertools
import re
from collections.abc import Callable
from typing import NamedTuple

# Each kind of datagram and of record: its number, and its forms in words. What stands in braces has
# bytes, which follow each other as the words do: a field, or a byte in hex that has no word.
SLOT = "{object} {version}"
SENT = f"from {{site}}, {SLOT}"
BALLOT, BAG = "ballot {ballot}", "bag {bag}"
REFUSALS = {13: "device", 14: "memory", 15: "needs opening"}
REFUSALS |= {20 + n: f"tree fault {n}" for n in range(1, 7)}
REFUSALS |= {40 + n: f"bag fault {n}" for n in range(1, 15)}
DATAGRAMS = [
    (1, f"Prepare {SENT}, {BALLOT}"),
    (2, f"Promise {SENT}, {BALLOT}, {{00}}no vote"),
    (2, f"Promise {SENT}, {BALLOT}, {{01}}vote {{ballot}}, {BAG}"),
    (3, f"Accept {SENT}, {BALLOT}, {BAG}"),
    (4, f"Accepted {SENT}, {BALLOT}, {BAG}"),
    (5, f"Refused {SENT}, {BALLOT}, promised {{ballot}}"),
    (6, f"Ask {SENT}"),
    (7, f"Known {SENT}, {BAG}"),
    (16, f"{{00}}Deposit, {SLOT}, path {{path}}"),
    (17, f"{{00}}Query, {SLOT}"),
    (18, f"{{00}}Recover, {SLOT}"),
    (32, f"DepositReply {SENT}, {{00}}registered, {BAG}"),
    (32, f"DepositReply {SENT}, {{0b}}other deposit, {BAG}"),
    (32, f"DepositReply {SENT}, {{0c}}other known, {BAG}"),
    *((32, f"DepositReply {SENT}, {{{it:02x}}}{REFUSALS[it]}{{no bag}}") for it in REFUSALS),
    (33, f"QueryReply {SENT}, {{00}}known, {BAG}"),
    (33, f"QueryReply {SENT}, {{01}}pending, {BAG}"),
    (33, f"QueryReply {SENT}, {{02}}nothing{{no bag}}"),
    (33, f"QueryReply {SENT}, {{0f}}needs opening{{no bag}}"),
]
RECORDS = [
    (1, f"record Deposit, {SLOT}, {BAG}"),
    (2, f"record Round, {SLOT}, round {{round}}"),
    (3, f"record Promise, {SLOT}, {BALLOT}"),
    (4, f"record Vote, {SLOT}, {BALLOT}, {BAG}"),
    (5, f"record Known, {SLOT}, {BAG}"),
]
IDENTITY = "identity of {bag}"
HEADER = "header of site {site}, weights {weights}"
MAGIC, JOURNAL = b"BP\2", b"BPJ2"
# What may follow a datagram's words after `but`, so that it is none of the federation: how it is
# then made of the bytes before the checksum.
CHANGES = {
    "": lambda it: sealed(it),
    "without its checksum": lambda it: it,
    "without its last byte": lambda it: sealed(it)[:-1],
    "with another checksum": lambda it: sealed(it)[:-1] + bytes([sealed(it)[-1] ^ 1]),
    "a byte shorter": lambda it: sealed(it[:-1]),
    "a byte longer": lambda it: sealed(it + b"\xff"),
    "of federation 8": lambda it: sealed(it[:4] + (8).to_bytes(8, "big") + it[12:]),
    "in layout 1": lambda it: it[:2] + b"\1" + it[3:],
}


def sealed(bytes):
    """The bytes, and their checksum."""
    return bytes + hashlib.sha256(bytes).digest()[:8]


def pieces(form):
    """The words of a form, each with what stands in braces after it."""
    return re.findall(r"([^{]*)(?:\{(.*?)\})?", form)


def fixed(field):
    """The bytes of what stands in braces and is no field."""
    return bytes(64) if field == "no bag" else bytes.fromhex(field)


class Field(NamedTuple):
    """How a field's words look, their bytes, and the words with which bytes begin, and what follows
    these bytes."""

    look: str
    written: Callable
    read: Callable


def numbers(*sizes):
    """Numbers of these many bytes each."""
    ends = [0, *itertools.accumulate(sizes)]
    cut = lambda it: [int.from_bytes(it[a:b], "big") for a, b in itertools.pairwise(ends)]
    return Field(
        " ".join([r"\d+"] * len(sizes)),
        lambda it: b"".join(int(n).to_bytes(size, "big") for n, size in zip(it.split(), sizes)),
        lambda it: (" ".join(map(str, cut(it))), it[ends[-1] :]),
    )


def text(size, look):
    """A text, after its length in this many bytes."""
    end = lambda it: size + int.from_bytes(it[:size], "big")
    return Field(
        look,
        lambda it: len(it.encode()).to_bytes(size, "big") + it.encode(),
        lambda it: (it[size : end(it)].decode(), it[end(it) :]),
    )


def bag(texts):
    """The identity of a text that has a name, or one in hex."""
    identities = {name: hashlib.sha512(it).digest() for name, it in texts.items()}
    names = {identity: name for name, identity in identities.items()}
    return Field(
        "|".join([*map(re.escape, identities), "[0-9a-f]{128}"]),
        lambda it: identities[it] if it in identities else bytes.fromhex(it),
        lambda it: (names.get(it[:64], it[:64].hex()), it[64:]),
    )


WEIGHTS = Field(
    r"\d+(?: \d+)*",
    lambda it: bytes([len(it.split()), *map(int, it.split())]),
    lambda it: (" ".join(map(str, it[1 : 1 + it[0]])), it[1 + it[0] :]),
)


class Notation:
    """The words of a document: of its federation, with the names that texts have for bags."""

    def __init__(self, federation, texts):
        self.federation = federation.to_bytes(8, "big")
        self.fields = {"site": numbers(1), "version": numbers(4), "round": numbers(4)}
        self.fields |= {"ballot": numbers(4, 1), "object": text(1, r"\S+"), "path": text(2, ".+")}
        self.fields |= {"weights": WEIGHTS, "bag": bag(texts)}

    def bytes_of(self, words):
        """The bytes that these words mean."""
        if (bag := self.written(IDENTITY, words)) is not None:
            return bag
        good, _, change = words.partition(", but ")
        for kind, form in DATAGRAMS:
            body = self.written(form, good)
            if body is not None and change in CHANGES:
                return CHANGES[change](MAGIC + bytes([kind]) + self.federation + body)
        for kind, form in RECORDS:
            if (body := self.written(form, words)) is not None:
                return sealed((1 + len(body) + 8).to_bytes(2, "big") + bytes([kind]) + body)
        if (body := self.written(HEADER, words)) is not None:
            return JOURNAL + self.federation + body
        raise ValueError(f"these words mean no bytes: {words}")

    def written(self, form, words):
        """The bytes of words in this form; None where they aren't."""
        look = lambda it: f"({self.fields[it].look})" if it in self.fields else ""
        looks = "".join(re.escape(it) + look(field) for it, field in pieces(form))
        found = re.fullmatch(looks, words)
        if not found:
            return None
        said = iter(found.groups())
        put = lambda it: self.fields[it].written(next(said)) if it in self.fields else fixed(it)
        return b"".join(put(field) for _, field in pieces(form) if field)

    def words_of(self, bytes):
        """The words that mean these bytes; None where there are none."""
        if len(bytes) < 4:
            return None
        bodies = [(form, bytes[12:-8]) for kind, form in DATAGRAMS if bytes[3] == kind]
        bodies += [(form, bytes[3:-8]) for kind, form in RECORDS if bytes[2] == kind]
        for form, body in [*bodies, (HEADER, bytes[12:])]:
            with contextlib.suppress(IndexError, ValueError, OverflowError):
                if self.bytes_of(words := self.read(form, body)) == bytes:
                    return words
        return None

    def read(self, form, bytes):
        """The words of bytes, as if they were in this form."""
        said = ""
        for words, field in pieces(form):
            said += words
            if field in self.fields:
                word, bytes = self.fields[field].read(bytes)
                said += word
            elif field:
                bytes = bytes[len(fixed(field)) :]
        return said

    def in_words(self, line):
        """A line with words in place of the hex in it, where there are words for it."""
        return re.sub(r"\b(?:[0-9a-f]{2}){14,}\b", lambda it: self.told(it[0]), line)

    def told(self, hex):
        """The words of hex: of a datagram, cell or record, or of a named bag; else the hex itself."""
        bag, _ = self.fields["bag"].read(bytes.fromhex(hex))
        if len(hex) == 128 and bag != hex:
            return f"@{{identity of {bag}}}"
        said = [self.words_of(it) for it in parts(bytes.fromhex(hex))]
        return "".join(f"@{{{it}}}" for it in said) if all(said) else hex


def parts(bytes):
    """A cell's header and records; or all the bytes, of what is no cell."""
    end = 14 + bytes[13] if bytes.startswith(JOURNAL) else len(bytes)
    while bytes:
        yield bytes[:end]
        bytes = bytes[end:]
        end = 2 + int.from_bytes(bytes[:2], "big")
