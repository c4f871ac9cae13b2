"""A document: what the programs read of it, and what they have to print. tests/documents says what
it is. No test of itself."""
import re
import subprocess

from notation import Notation
from testing import DATA, PROBE

QUOTED = re.compile(r'"((?:[^"\\]|\\.)*)"')
# Words that mean bytes; within quotes one word is the name of a text.
WORDS = re.compile(r"@\{([^}]* [^}]*)\}")
FIRST = re.compile(r"^(?:sites|federation) (\d+)", re.M)
# That of `probe serving`.
FEDERATION = 7


def bytes_of(quoted, texts):
    """The bytes of a text between quotes."""
    named = lambda it: texts[it[1]].decode("latin-1")
    text = re.sub(r"@\{([^}]*)\}", named, quoted.encode().decode("latin-1"))
    escapes = {"n": "\n", "r": "\r", "t": "\t", '"': '"', "\\": "\\"}
    escaped = lambda it: chr(int(it[1], 16)) if it[1] else escapes[it[2]]
    return re.sub(r"\\(?:x(..)|(.))", escaped, text).encode("latin-1")


def read_texts():
    """The texts that have names: lines NAME "TEXT", each of which may name those above it."""
    texts = {}
    for line in (DATA / "texts").read_text().splitlines():
        if line and not line.startswith("#"):
            name, quoted = line.split(" ", 1)
            texts[name] = bytes_of(QUOTED.fullmatch(quoted)[1], texts)
    return texts


def notation_of(lines, texts):
    """The notation of the document: of the federation that its first command names."""
    first = FIRST.search("\n".join(lines))
    return Notation(int(first[1]) if first else FEDERATION, texts)


def with_bytes(line, notation):
    """The line with bytes in hex in place of words that mean them."""
    return WORDS.sub(lambda it: notation.bytes_of(it[1]).hex(), line)


def printed(lines, texts):
    """The lines that the program has to print."""
    wanted, notation = [], notation_of(lines, texts)
    for line in lines:
        if line.startswith("#> "):
            wanted.append(with_bytes(line[3:], notation))
        elif line.startswith("#>> "):
            wanted[-1] += with_bytes(line[4:], notation)
    return wanted


def read_by_program(lines, texts):
    """The document as the program reads it."""
    notation, hexed = notation_of(lines, texts), lambda taken: taken.hex() or "-"

    def read(line):
        if line.startswith("#"):
            return line
        line = QUOTED.sub(lambda it: hexed(bytes_of(it[1], texts)), with_bytes(line, notation))
        return re.sub(r"(?<= )@(\S+)", lambda it: hexed(texts[it[1]]), line)

    return "".join(f"{read(it)}\n" for it in lines)


def printed_schedule(text):
    """The schedule of the text as `probe schedule` prints it."""
    how = {"input": text.encode(), "capture_output": True, "timeout": 60}
    return subprocess.run([PROBE, "schedule"], **how).stdout.decode()


def why_not_read_again(text):
    """What is wrong with the schedule as it is printed; None where it has each command again, and
    is printed as itself."""
    wanted = "".join(("" if it.startswith("#") else it) + "\n" for it in text.splitlines())
    once = printed_schedule(text)
    if once != wanted:
        return f"printed as {once!r}"
    return None if printed_schedule(once) == once else "what is printed isn't printed as itself"
