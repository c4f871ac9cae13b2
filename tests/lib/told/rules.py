"""What a site does: the rules of docs/PROTOCOL.md, by a second writer who shares nothing with the
program. A call or an arrival gives a record, messages, and a line or a refusal. No test of itself.
"""
from typing import NamedTuple, Optional

MOST_ROUNDS = 4294967295
# The bytes of a record besides its object's name and its body, and those of each kind's body.
RECORD_FRAME = 2 + 1 + 1 + 4 + 8
BODIES = {"deposit": 64, "round": 4, "promise": 5, "vote": 69, "known": 64}


class Slot(NamedTuple):
    """A version of an object, whose name is in bytes."""

    object: bytes
    version: int

    def __str__(self):
        return f"{escaped(self.object)} {self.version}"


def escaped(name):
    """A name as a line has it."""
    return "".join(chr(it) if 0x20 < it < 0x7F and it != 0x25 else f"%{it:02X}" for it in name)


class Ballot(NamedTuple):
    """Ordered by its round, then by its site."""

    round: int
    site: int

    def __str__(self):
        return f"({self.round}, {self.site})"


class Record(NamedTuple):
    """What a site puts on record: of a Round the ballot is the one that it begins."""

    kind: str
    slot: Slot
    ballot: Optional[Ballot] = None
    bag: Optional[bytes] = None

    @property
    def bytes(self):
        """How many it has in the cell."""
        return RECORD_FRAME + len(self.slot.object) + BODIES[self.kind]


class Message(NamedTuple):
    """What a site tells another: `other` is the ballot of the vote that a Promise names, or the one
    that a Refused says was promised."""

    kind: str
    slot: Slot
    ballot: Optional[Ballot] = None
    other: Optional[Ballot] = None
    bag: Optional[bytes] = None


class Effect(NamedTuple):
    """A record, messages with their addressees, and what is said: a word, or a refusal's number and
    what it is about."""

    record: Optional[Record] = None
    messages: tuple = ()
    said: str = ""
    refusal: int = 0


class Site:
    """A site with what it has on record, and what it has heard since it was opened."""

    def __init__(self, number, weights):
        self.number, self.weights, self.records = number, weights, []
        self.forget()

    def forget(self):
        """What is heard, and the current ballots, are volatile."""
        self.current, self.floor = {}, {}
        # Who has promised a ballot, in order, with the vote that he named; who has cast a vote.
        self.promises, self.votes = {}, {}

    @property
    def needed(self):
        return sum(self.weights) // 2 + 1

    def weight(self, sites):
        return sum(self.weights[it - 1] for it in sites)

    def to_all(self, message):
        return tuple((it, message) for it in range(1, len(self.weights) + 1))

    def of_slot(self, kind, slot):
        return [it for it in self.records if (it.kind, it.slot) == (kind, slot)]

    def first_bag(self, kind, slot):
        """The bag of the slot's first record of a kind."""
        found = self.of_slot(kind, slot)
        return found[0].bag if found else None

    def promised(self, slot):
        """The greatest ballot in Promise and Vote records."""
        found = self.of_slot("promise", slot) + self.of_slot("vote", slot)
        return max((it.ballot for it in found), default=None)

    def vote(self, slot):
        """The Vote of the greatest ballot, of equal ones the first."""
        return max(self.of_slot("vote", slot), key=lambda it: it.ballot, default=None)

    # ---- calls

    def deposit(self, slot, fault, bag):
        if fault:
            return Effect(refusal=10)
        own, known = self.first_bag("deposit", slot), self.first_bag("known", slot)
        if own not in (None, bag):
            return Effect(refusal=11)
        if known not in (None, bag):
            return Effect(refusal=12)
        return Effect(None if own else Record("deposit", slot, bag=bag), said="registered")

    def propose(self, slot):
        own = self.first_bag("deposit", slot)
        if self.first_bag("known", slot):
            return Effect(refusal=18)
        if own is None:
            return Effect(refusal=16)
        return self.begins(slot)

    def recover(self, slot):
        if self.first_bag("known", slot):
            return Effect(refusal=18)
        if self.vote(slot) is None and self.first_bag("deposit", slot) is None:
            return Effect(refusal=19)
        return self.begins(slot)

    def begins(self, slot):
        """A ballot is begun, unless none is left."""
        used = max((it.ballot.round for it in self.of_slot("round", slot)), default=0)
        next_round = max(used, self.floor.get(slot, 0)) + 1
        if next_round > MOST_ROUNDS:
            return Effect(refusal=17)
        ballot = Ballot(next_round, self.number)
        self.current[slot] = ballot
        return Effect(Record("round", slot, ballot), self.to_all(Message("Prepare", slot, ballot)))

    def ask(self, to, slot):
        return Effect(messages=((to, Message("Ask", slot)),))

    def query(self, slot):
        known, own = self.first_bag("known", slot), self.first_bag("deposit", slot)
        return ("known", known) if known else ("pending", own) if own else ("nothing", None)

    # ---- arrivals

    def arrives(self, sender, message):
        return getattr(self, f"on_{message.kind.lower()}")(sender, message)

    def on_prepare(self, sender, message):
        slot, ballot, promised = message.slot, message.ballot, self.promised(message.slot)
        if promised is not None and ballot <= promised:
            return Effect(messages=((sender, Message("Refused", slot, ballot, promised)),))
        vote = self.vote(slot)
        named = (vote.ballot, vote.bag) if vote else (None, None)
        promise = Message("Promise", slot, ballot, *named)
        return Effect(Record("promise", slot, ballot), ((sender, promise),))

    def on_promise(self, sender, message):
        slot, ballot = message.slot, message.ballot
        if self.current.get(slot) != ballot:
            return Effect()
        heard = self.promises.setdefault((slot, ballot), {})
        before = self.weight(heard)
        heard.setdefault(sender, message)
        if before >= self.needed or self.weight(heard) < self.needed:
            return Effect()
        # Of equal ballots the first heard.
        highest = max(
            (it for it in heard.values() if it.other), key=lambda it: it.other, default=None
        )
        bag = highest.bag if highest else self.first_bag("deposit", slot)
        if bag is None:
            return Effect()
        return Effect(messages=self.to_all(Message("Accept", slot, ballot, bag=bag)))

    def on_accept(self, sender, message):
        slot, ballot, bag = message.slot, message.ballot, message.bag
        promised, vote = self.promised(slot), self.vote(slot)
        accepted = self.to_all(Message("Accepted", slot, ballot, bag=bag))
        if vote and (vote.ballot, vote.bag) == (ballot, bag):
            return Effect(messages=accepted)
        if promised is not None and (ballot < promised or vote and vote.ballot == ballot):
            return Effect(messages=((sender, Message("Refused", slot, ballot, promised)),))
        return Effect(Record("vote", slot, ballot, bag), accepted)

    def on_accepted(self, sender, message):
        slot = message.slot
        heard = self.votes.setdefault((slot, message.ballot, message.bag), set())
        before = self.weight(heard)
        heard.add(sender)
        if before >= self.needed or self.weight(heard) < self.needed:
            return Effect()
        return self.learns(slot, message.bag)

    def on_known(self, sender, message):
        return self.learns(message.slot, message.bag)

    def learns(self, slot, bag):
        if self.first_bag("known", slot):
            return Effect()
        return Effect(Record("known", slot, bag=bag), said="known")

    def on_refused(self, sender, message):
        slot = message.slot
        self.floor[slot] = max(self.floor.get(slot, 0), message.other.round)
        return Effect()

    def on_ask(self, sender, message):
        known = self.first_bag("known", message.slot)
        told = ((sender, Message("Known", message.slot, bag=known)),) if known else ()
        return Effect(messages=told)
