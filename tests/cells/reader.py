"""What a cell says, and what opening it leaves: the rules of docs/FORMATS.md on journals.

It shares nothing with the program, and is written to be compared with those rules line by line.
"""
import collections
import hashlib

OLD_MAGIC, MAGIC = b"BPJ1", b"BPJ2"
# The bytes of a header up to the site, and those of a record's length and checksum.
FRONT, LENGTH, CHECKSUM = 13, 2, 8
MOST_SITES, LONGEST_OBJECT = 63, 200
# The fewest and the most bytes between the length and the checksum.
SHORTEST, LONGEST = 11, 275
OLD, NEW = 1, 2
BAG, NUMBER = 64, 4

# Whose cell it is: a federation, a site, and the weights of the members.
Owner = collections.namedtuple("Owner", "federation site weights")
Record = collections.namedtuple("Record", "word object version bag")


class Fault(Exception):
    """Why a cell isn't opened; `number` is the one that `open N` prints."""

    NUMBERS = {"OtherFederation": 1, "OtherSite": 2, "Damaged": 3, "OtherWeights": 6}

    def __init__(self, word, place=None):
        super().__init__(word if place is None else f"{word}({place})")
        self.number = self.NUMBERS[word]


class NoRecord(Exception):
    """The bytes are no record."""


def checksum(bytes):
    return hashlib.sha256(bytes).digest()[:CHECKSUM]


def number(bytes):
    return int.from_bytes(bytes, "big")


# ---- headers


def front(owner, magic):
    return magic + owner.federation.to_bytes(8, "big") + bytes([owner.site])


def header(owner):
    """The header of layout 2."""
    return front(owner, MAGIC) + bytes([len(owner.weights), *owner.weights])


def header_at(owner, bytes):
    """The weights of a header of layout 2 with which the bytes begin; `part` where they are a
    proper prefix of one; else none."""
    begin = front(owner, MAGIC)
    if len(bytes) <= FRONT:
        return "part" if begin.startswith(bytes) else None
    count, weights = bytes[FRONT], bytes[FRONT + 1 :]
    if not bytes.startswith(begin) or not 1 <= count <= MOST_SITES or 0 in weights[:count]:
        return None
    return list(weights[:count]) if count <= len(weights) else "part"


# ---- records


def ballot(bytes):
    """A ballot in the words of the program."""
    if number(bytes[:NUMBER]) == 0 or not 1 <= bytes[NUMBER] <= MOST_SITES:
        raise NoRecord
    return f"{number(bytes[:NUMBER])},{bytes[NUMBER]}"


def body(kind, bytes):
    """The word of a record, and its bag, if it has one."""
    sizes = {1: BAG, 2: NUMBER, 3: NUMBER + 1, 4: NUMBER + 1 + BAG, 5: BAG}
    if sizes.get(kind) != len(bytes):
        raise NoRecord
    if kind == 1:
        return "Deposit", bytes
    if kind == 2:
        if number(bytes) == 0:
            raise NoRecord
        return f"Round{number(bytes)}", None
    if kind == 3:
        return f"Promise({ballot(bytes)})", None
    if kind == 4:
        return f"Vote({ballot(bytes[: NUMBER + 1])})", bytes[NUMBER + 1 :]
    return "Known", bytes


def record(content):
    """The record of these bytes, which are those between a length and a checksum."""
    kind, size = content[0], content[1]
    object, rest = content[2 : 2 + size], content[2 + size :]
    if not 1 <= size <= LONGEST_OBJECT or len(object) < size or len(rest) < NUMBER:
        raise NoRecord
    version = number(rest[:NUMBER])
    if version == 0:
        raise NoRecord
    try:
        text = object.decode("utf-8")
    except UnicodeDecodeError:
        raise NoRecord from None
    word, bag = body(kind, rest[NUMBER:])
    return Record(word, text, version, bag)


def whole_record(layout, bytes):
    """The record of these bytes, its length and its checksum among them."""
    if layout == OLD:
        return record(bytes[LENGTH:])
    if bytes[-CHECKSUM:] != checksum(bytes[:-CHECKSUM]):
        raise NoRecord
    return record(bytes[LENGTH:-CHECKSUM])


def record_size(layout, bytes, place):
    """How many bytes a record has here, by its length; none at a torn tail, or where all ends."""
    rest = bytes[place:]
    if len(rest) < LENGTH:
        return None
    more = CHECKSUM if layout == NEW else 0
    size = number(rest[:LENGTH])
    if not SHORTEST + more <= size <= LONGEST + more:
        raise Fault("Damaged", place)
    return LENGTH + size if LENGTH + size <= len(rest) else None


# ---- whole cells


def weights_of(owner, bytes):
    """The weights of the header with which the cell begins; none of layout 1."""
    magic = bytes[:4]
    if magic not in (OLD_MAGIC, MAGIC) or len(bytes) < FRONT + (magic == MAGIC):
        raise Fault("Damaged", 0)
    if bytes[4:12] != owner.federation.to_bytes(8, "big"):
        raise Fault("OtherFederation")
    if bytes[12] != owner.site:
        raise Fault("OtherSite")
    if magic == OLD_MAGIC:
        return None
    weights = header_at(owner, bytes)
    if weights is None:
        raise Fault("Damaged", 0)
    return weights


def read_text(owner, bytes):
    """The records, where their text ends, and the weights of the header of layout 2, if there is
    one."""
    weights = weights_of(owner, bytes)
    place = FRONT if weights is None else FRONT + 1 + len(weights)
    records = []
    while place < len(bytes):
        if weights is None:
            found = header_at(owner, bytes[place:])
            if found == "part":
                break
            if found is not None:
                weights, place = found, place + FRONT + 1 + len(found)
                continue
        layout = OLD if weights is None else NEW
        size = record_size(layout, bytes, place)
        if size is None:
            break
        try:
            records.append(whole_record(layout, bytes[place : place + size]))
        except NoRecord:
            raise Fault("Damaged", place) from None
        place += size
    return records, place, weights


def is_new(owner, bytes):
    """Whether the cell is a proper prefix of a header, of either layout."""
    old = front(owner, OLD_MAGIC)
    return len(bytes) < len(old) and old.startswith(bytes) or header_at(owner, bytes) == "part"


def are_weights(owner, weights):
    """Whether the weights that stand are the members'."""
    if weights is None:
        return set(owner.weights) == {1}
    return weights == list(owner.weights)


def open_cell(owner, bytes):
    """The records of the cell, and its bytes once it is open. A refused one stays as it is."""
    if is_new(owner, bytes):
        return [], header(owner)
    records, end, weights = read_text(owner, bytes)
    if not records:
        return [], header(owner)
    if not are_weights(owner, weights):
        raise Fault("OtherWeights")
    return records, bytes[:end] + (header(owner) if weights is None else b"")


def answer(owner, bytes):
    """What `probe` prints of it: the records or the fault, and the bytes afterwards."""
    try:
        records, after = open_cell(owner, bytes)
    except Fault as fault:
        return f"{fault} | {bytes.hex()}"
    return f"{' '.join(it.word for it in records) or 'none'} | {after.hex()}"
