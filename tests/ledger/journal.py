"""What `bagpaxos journal` prints of a cell, by the rules of docs/FORMATS.md on journals."""
import functools
import re

from reader import CHECKSUM, FRONT, LENGTH, LONGEST, MAGIC, MOST_SITES, NEW, OLD, OLD_MAGIC
from reader import SHORTEST, NoRecord, Owner, header_at, number, whole_record


@functools.lru_cache(1 << 16)
def escaped(text):
    """A name as one word: bytes 00 to 20, 25, and 7F and above in hex."""
    plain = lambda byte: 0x20 < byte < 0x7F and byte != 0x25
    return "".join(chr(it) if plain(it) else f"%{it:02X}" for it in text.encode())


def line_of(record):
    """The line of a record."""
    kind, *numbers = re.findall(r"[A-Za-z]+|\d+", record.word)
    bag = [] if record.bag is None else [record.bag.hex()]
    words = [kind.lower(), escaped(record.object), str(record.version), *numbers, *bag]
    return " ".join(words)


def owner_of(bytes):
    """Whose cell it is, its weights left open; none, where no header names a site."""
    long = FRONT if bytes[:4] == OLD_MAGIC else FRONT + 1
    if bytes[:4] not in (OLD_MAGIC, MAGIC) or len(bytes) < long:
        return None
    federation, site = number(bytes[4:12]), bytes[12]
    return Owner(federation, site, [1]) if 1 <= site <= MOST_SITES else None


def is_header_part(bytes):
    """Whether a header of some federation and site begins with these bytes, and goes on."""
    if len(bytes) < FRONT:
        return any(it.startswith(bytes[:4]) for it in (OLD_MAGIC, MAGIC))
    if bytes[:4] != MAGIC or not 1 <= bytes[12] <= MOST_SITES:
        return False
    return header_at(Owner(number(bytes[4:12]), bytes[12], [1]), bytes) == "part"


def headless(bytes):
    """The lines of bytes that begin with no whole header, and the status."""
    if not bytes:
        return [], 0
    return ([f"torn {len(bytes)}"], 0) if is_header_part(bytes) else (["damaged 0"], 1)


def next_record(layout, bytes, place):
    """The record here and where it ends; `torn` at a torn tail, `damaged` at damage."""
    more, rest = CHECKSUM if layout == NEW else 0, bytes[place:]
    if len(rest) < LENGTH:
        return "torn"
    size = number(rest[:LENGTH])
    if not SHORTEST + more <= size <= LONGEST + more:
        return "damaged"
    if len(rest) < LENGTH + size:
        return "torn"
    try:
        return whole_record(layout, rest[: LENGTH + size]), place + LENGTH + size
    except NoRecord:
        return "damaged"


def journal(bytes):
    """The lines that have to be printed, and the exit status."""
    owner = owner_of(bytes)
    weights, place = None, FRONT
    if owner is None:
        return headless(bytes)
    if bytes[:4] == MAGIC:
        weights = header_at(owner, bytes)
        if weights is None or weights == "part":
            return headless(bytes)
        place = FRONT + 1 + len(weights)
    lines, end = [], []
    while place < len(bytes):
        if weights is None:
            found = header_at(owner, bytes[place:])
            if found == "part":
                end = [f"torn {len(bytes) - place}"]
                break
            if found is not None:
                weights, place = found, place + FRONT + 1 + len(found)
                continue
        found = next_record(OLD if weights is None else NEW, bytes, place)
        if found == "torn":
            end = [f"torn {len(bytes) - place}"]
            break
        if found == "damaged":
            end = [f"damaged {place}"]
            break
        record, place = found
        lines.append(line_of(record))
    first = " ".join(map(str, ["cell", owner.federation, owner.site, *(weights or [])]))
    return [first, *lines, *end], int(bool(end) and end[0].startswith("damaged"))
