"""The file tests/mutants.results, and what is due by it."""
import re
import threading
import time

HEAD = """\
# What tests/mutants has refused: a line a crate, with the minute (UTC) at which the last of all its
# mutants was refused, or -, and the first digits of a hash of each that is refused as it stands.
"""
NEVER = "-"
LINE = re.compile(rf"(\w+) ({NEVER}|\d{{4}}-\d\d-\d\dT\d\d:\d\d)((?: [0-9a-f]{{8}})*)")
DIGITS = 8


class Results:
    """Of each crate the mutants that are refused as they stand, by their hashes, and the minute."""

    def __init__(self, file, hashes):
        self.file, self.lock, self.own, self.rows = file, threading.Lock(), {}, {}
        for crate, name in hashes:
            self.own.setdefault(crate, {})[name] = hashes[crate, name][:DIGITS]
        lines = file.read_text().splitlines() if file.exists() else []
        for crate, minute, refused in (it.groups() for it in map(LINE.fullmatch, lines) if it):
            self.rows[crate] = minute, refused.split()

    def is_tried(self, mutant):
        """Whether the mutant was refused as it stands now."""
        crate, name = mutant
        return self.own[crate][name] in self.rows.get(crate, (NEVER, ()))[1]

    def minute(self, crate):
        """When all of the crate's mutants had last been refused, each at whatever it was then; the
        earliest where they never were."""
        return self.rows.get(crate, (NEVER, ()))[0]

    def put(self, mutant, is_refused):
        """Notes whether a mutant is refused, and writes the file anew."""
        crate, name = mutant
        with self.lock:
            tried = {it: is_refused if it == name else self.is_tried((crate, it))
                     for it in self.own[crate]}
            refused = [it for name, it in self.own[crate].items() if tried[name]]
            now = time.strftime("%Y-%m-%dT%H:%M", time.gmtime())
            self.rows[crate] = now if all(tried.values()) else self.minute(crate), refused
            self.write()

    def write(self):
        """Writes a line for each crate that has mutants, in the order of the crates."""
        rows = ((it, *self.rows[it]) for it in self.own if it in self.rows)
        lines = [" ".join([it, minute, *refused]) + "\n" for it, minute, refused in rows]
        new = self.file.with_suffix(".new")
        new.write_text(HEAD + "".join(lines))
        new.replace(self.file)


def named(words, hashes):
    """The mutants that the words name, as CRATE or CRATE/MUTANT, and the words that name none."""
    fits = lambda it, word: word in (it[0], "/".join(it))
    found = [it for it in hashes if any(fits(it, word) for word in words)]
    return found, [word for word in words if not any(fits(it, word) for it in hashes)]


def by_crates(mutants, results):
    """Of each crate the names of these mutants, those crates first that wait the longest."""
    rows = {}
    for crate, name in sorted(mutants, key=lambda it: (results.minute(it[0]), it)):
        rows.setdefault(crate, []).append(name)
    return rows


def told(results, hashes, failed):
    """What is said at the end: how many are tried on this tree, and which are owed."""
    owed = [it for it in hashes if not results.is_tried(it) and it not in failed]
    tried = len(hashes) - len(owed) - len(failed)
    yield f"{tried} of all {len(hashes)} mutants are refused on this tree, {len(owed)} are owed"
    for crate in dict.fromkeys(crate for crate, _ in owed):
        yield f"owed {crate}: {' '.join(name for it, name in owed if it == crate)}"
