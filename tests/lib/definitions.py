"""The numbers of the definitions, read from crates/*/specs, and of the constants of the code."""
import re

from testing import ROOT


def text_of(file):
    """The text of a file of a crate."""
    return (ROOT / "crates" / file).read_text()


def defined(file, name):
    """The number of a definition, in digits or as 2 ^ BITS - 1, BITS being one of the same file."""
    text = text_of(file)
    power = re.search(rf"^{name} = 2 \^ (\w+) - 1$", text, re.MULTILINE)
    if power:
        return 2 ** defined(file, power[1]) - 1
    return int(re.search(rf"^{name} = (\d+)$", text, re.MULTILINE)[1])


def bytes_of(file, name):
    """The bytes of a definition that is a list of them, as a page has them."""
    row = re.search(rf"^{name} = ((?:\w+ ∷ )+)\[\]$", text_of(file), re.MULTILINE)[1]
    return " ".join(f"{int(it, 0):02X}" for it in row.split(" ∷ ") if it)


def numbers_of(file, function):
    """The number of each variant, of a definition that has a line for each."""
    line = rf"^{function} \(?(?:\w+\.)?([A-Z]\w+)(?: \w+)*\)? = (\d+)$"
    return {it[0]: int(it[1]) for it in re.findall(line, text_of(file), re.MULTILINE)}


def constant(file, name):
    """The number of a constant of the code."""
    found = re.search(rf"const {name}: \w+ = (?:([\d_]+)|u32::MAX);", text_of(file))
    return int(found[1].replace("_", "")) if found[1] else 2**32 - 1


def defaults(file):
    """The numbers that arguments have where none is given, in the order of the code."""
    return [int(it) for it in re.findall(r'\.default_value\("(\d+)"\)', text_of(file))]
