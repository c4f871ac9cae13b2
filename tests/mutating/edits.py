"""Mutants, as edits of a crate, and what a check says of them."""
import re


class Mutant:
    """An edit, as pairs of texts in files, and the one function that it changes."""

    def __init__(self, file, folder):
        self.name, self.pairs = file.stem, []
        path = old = None
        for line in file.read_text().splitlines():
            if line.startswith("file: "):
                path = line[6:].strip()
            elif line.startswith("old: "):
                old = line[5:]
            elif line.startswith("new:"):
                self.pairs.append((path, old, line[4:].removeprefix(" ")))
        found = {function_at(path, (folder / path).read_text(), old) for path, old, _ in self.pairs}
        self.function = found.pop() if len(found) == 1 else None

    def apply(self, folder):
        """Changes the copy in this folder; says why where that can't be done."""
        for path, old, new in self.pairs:
            text = (folder / path).read_text()
            if text.count(old) != 1:
                return f"'{old}' is in {path} {text.count(old)} times, and not once"
            (folder / path).write_text(text.replace(old, new))
        return None if self.pairs else "it has no 'old:' and 'new:' pair"


def function_at(path, text, old):
    """The file, the `impl` and the name of the function whose lines hold this text, if one does."""
    if not path.startswith("src/") or text.count(old) != 1:
        return None
    lines = text.splitlines()
    at = text[: text.index(old)].count("\n")
    for start in range(at, -1, -1):
        header = re.match(r"( *)(?:pub(?:\(crate\))? )?(?:const )?fn (\w+)", lines[start])
        if header:
            end = next((n for n in range(start, len(lines)) if lines[n] == header[1] + "}"), start)
            if not start < at <= end:
                return None
            opens = r"impl\b(?:<[^{]*?>)? ?(.*?) ?(?:where.*)?{"
            above = (re.match(opens, it) for it in reversed(lines[:start]))
            block = next((it[1] for it in above if it), "") if header[1] else ""
            return path, block, header[2]
    return None


def verdicts_on(function, crate, said):
    """What the check says of the function, by each name of its that the check gives. One of which
    a goal of its own is open counts as not proved; of another that has no proof it says what this
    one calls."""
    path, block, name = function
    inner = (it for it in path[4:-3].split("/") if it not in ("lib", "main", "mod"))
    module = "::".join([crate, *inner])
    owner = re.sub(r"<.*", "", block.split(" for ")[-1].strip())
    found, elsewhere = [], []
    for line in said:
        verdict = re.match(r"fn (\S+): (proved|not proved|no proof)(: expected answers)?", line)
        if not verdict or not verdict[1].endswith("::" + name):
            continue
        given = verdict[1], "not proved" if verdict[3] else verdict[2]
        if owner and re.fullmatch(rf"{crate}::(\w+::)*{owner}::{name}", verdict[1]):
            # A method may stand in another file than its type, whose module the name has.
            elsewhere.append(given)
        if not verdict[1].startswith(module + "::"):
            continue
        between = verdict[1][len(module) :][: -len(name) - 2].removeprefix("::")
        is_same = not owner or between == owner or between.startswith(owner + "+")
        if between.startswith(owner) if owner else not between:
            if is_same or " for " in block:
                found.append(given)
    return found or elsewhere


def verdict_of(function, crate, said):
    """What the check says of the function; None where it doesn't, or of several."""
    found = verdicts_on(function, crate, said)
    return found[0][1] if len(found) == 1 else None


def name_of(function, crate, said):
    """The function's name, as the check prints it; None where it doesn't, or several."""
    found = verdicts_on(function, crate, said)
    return found[0][0] if len(found) == 1 else None


# What a check says of a name that isn't there, or of a text that is none.
NAMES = r"is not in scope|has no field|is no name|operand is missing|expected the end"
NAMES += r"|cannot continue"


def is_unread(line):
    """The check couldn't read an edited text, so that no contract was tried: it isn't of the
    language, has a name that isn't there, or doesn't type."""
    if re.match(r"(?:\./)?(?:src|specs)/\S+:\d+:\d+: error\[[\w-]+\]", line):
        return True
    at = re.match(r"(?:\./)?(?:src|specs)/\S+:\d+:\d+: error: (?:(`[^`]*`): )?(.*)", line)
    return bool(at) and (not at[1] or bool(re.search(NAMES, re.sub(r"`[^`]*`", "", at[2]))))


def sentences(said):
    """The lines of a check, each with what goes on from it."""
    found = []
    for line in said:
        if line.startswith("  ") and found:
            found[-1] += " " + line.strip()
        else:
            found.append(line)
    return found


def is_of_a_name(sentence):
    """A proof by hand names what the edit took away, which says nothing of the contract."""
    words = r"has no field|is not in scope|has no `|was not admitted"
    return bool(re.match(rf"(?:note: )?(?:\./)?proofs/.*(?:{words})", sentence))


def refusals(said):
    """What the check refuses: goals that are open, and proofs that don't hold."""
    place = r"(?:note: )?\S+:\d+:\d+: (?:error|it is not proved)"
    return [it for it in sentences(said) if re.match(place, it)]


def is_for_names_alone(said):
    """All that the check refuses is what proofs by hand name; the first of that, or None."""
    refused = refusals(said)
    return refused[0] if refused and all(map(is_of_a_name, refused)) else None


def is_uncovered(said):
    """Nothing is refused, but of a function no proof can be begun, since the prover doesn't cover
    its code, so that no contract was tried; that line, or None."""
    lines = (it for it in said if re.match(r"fn \S+: no proof: expected (?!answers)", it))
    return None if refusals(said) else next(lines, None)


def batches_of(mutants, most):
    """The mutants in lists of different functions, each of so many at most."""
    rows = []
    for mutant in mutants:
        has_room = lambda row: len(row) < most and all(it.function != mutant.function for it in row)
        row = next((it for it in rows if has_room(it)), None)
        rows.append([mutant]) if row is None else row.append(mutant)
    return rows
