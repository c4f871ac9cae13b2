"""What `bagpaxos ledger` prints of a cell, by the rules of docs/AUDIT.md: from the lines of its
journal, which `journal.py` reads."""
import journal


class Version:
    """What the lines of one version say."""

    def __init__(self):
        self.known = self.deposit = self.vote = None
        self.ballot = (0, 0)

    def hears(self, kind, words):
        if kind == "known" and self.known is None:
            self.known = words[0]
        if kind == "deposit" and self.deposit is None:
            self.deposit = words[0]
        if kind == "vote":
            ballot = int(words[0]), int(words[1])
            if self.ballot < ballot:
                self.ballot, self.vote = ballot, words[2]

    def standing(self):
        """The word of its line, and the bag that it names."""
        for word, bag in [("known", self.known), ("pending", self.deposit), ("voted", self.vote)]:
            if bag is not None:
                return word, bag
        return "asked", None


def is_end(line):
    return line.split(" ")[0] in ("torn", "damaged")


def ledger(bytes, kinds=()):
    """The lines that have to be printed, and the exit status; of these kinds alone, where some are
    given."""
    lines, status = journal.journal(bytes)
    versions = {}
    for line in lines:
        kind, *words = line.split(" ")
        if kind != "cell" and not is_end(line):
            slot = tuple(words[:2])
            versions.setdefault(slot, Version()).hears(kind, words[2:])
    printed = []
    for slot, version in versions.items():
        word, bag = version.standing()
        if not kinds or word in kinds:
            printed.append(" ".join([word, *slot, *([bag] if bag else [])]))
    return printed + [it for it in lines if is_end(it)], status
