"""Names and numbers that share a hash of the toolchain's `FoldHasher`, whose seed is fixed.

It is written after the hasher's definition, and shares nothing with the program. A name goes in as
its bytes, then a byte 255; a version as four bytes, the lowest first.
"""
import itertools
import string

SEED, MULTIPLIER, WORD = 0x243F6A8885A308D3, 0x9E3779B97F4A7C15, 2**64 - 1
# A table of 73,729 to 147,456 has so many groups.
GROUPS = 16_384
# What a name may begin with here: a schedule has these bytes as they are.
PLAIN = (string.ascii_letters + string.digits).encode()


def folded(one, other):
    """The product's two halves, joined by exclusive or."""
    product = one * other
    return product & WORD ^ product >> 64


def number(bytes):
    return int.from_bytes(bytes, "little")


def short(bytes):
    """Up to eight bytes as one number: the first and the last four, which may overlap."""
    size = len(bytes)
    if size >= 4:
        return number(bytes[:4]) | number(bytes[-4:]) << 32
    return bytes[0] | bytes[size // 2] << 8 | bytes[-1] << 16 if size else 0


def written(state, bytes):
    """The state after these bytes."""
    size = len(bytes)
    if size <= 8:
        return folded(state ^ short(bytes), MULTIPLIER ^ 2 * size)
    state, at = state + size & WORD, 0
    while size - at > 16:
        state = folded(
            number(bytes[at : at + 8]) ^ state, number(bytes[at + 8 : at + 16]) ^ MULTIPLIER
        )
        at += 16
    last = max(0, size - 16)
    return folded(
        number(bytes[last : last + 8]) ^ state, number(bytes[size - 8 :]) ^ MULTIPLIER
    )


def hash_of(name, version=1):
    """The hash of a slot."""
    state = SEED
    for piece in (name, b"\xff", version.to_bytes(4, "little")):
        state = written(state, piece)
    return state


def names(count):
    """Names of 48 bytes with one hash. The third word of each is the state before it, so that a
    product is 0, whatever the fourth word is; the last two are the same in all."""
    for word in itertools.product(PLAIN, repeat=5):
        first = bytes(word) + b"-before-it-"
        state = folded(number(first[:8]) ^ SEED + 48, number(first[8:]) ^ MULTIPLIER)
        third = state.to_bytes(8, "little")
        if set(third) <= set(PLAIN):
            return [first + third + b"%08d" % it + b"-and-after-them-" for it in range(count)]
    raise AssertionError("no word begins names that collide")


def numbers(count):
    """Numbers of four bytes whose hashes lie at the first sixteenth of a table of 16,384 groups. A
    group holds twelve; one that finds its group full goes to the next. So they fill one run, and
    each look-up goes through it."""
    found = (it for it in itertools.count(1) if group_of(it) < GROUPS // 16)
    return list(itertools.islice(found, count))


def group_of(number):
    """The group at which a number's hash lies: its halves are joined, and the last bits count."""
    state = folded(SEED ^ (number | number << 32), MULTIPLIER ^ 8)
    return (state ^ state >> 32) % GROUPS
