"""A man in the middle: a relay host that keeps what passes it, and sends what it likes. No test of
itself."""
import itertools
import random

from hosted import PORT, RELAY, HostRelay, Passage
from keys import new_key, tagged
from messages import QUERY, of_clients, of_each_kind
from sites import SITES, write_members

# Kinds of datagrams from this one on have the clients' tags.
FIRST_OF_CLIENTS = 16
# A site's socket has room for so many datagrams.
BURST = 64
# How often a site is asked whether it has taken them, every two seconds.
MOST_TRIES = 30


class Middle(HostRelay):
    """It has no key, but those of the clients and those that were once in use. What is sent by it
    is (sender, site, datagram), of which the sender is 0 for a client."""

    def __init__(self, network, clients, old, seed=1):
        self.seen, self.clients, self.old = [], clients, old
        super().__init__(network, seed=seed)
        self.asker, self.gate = self.socket(), self.socket()
        self.gate.settimeout(2)
        self.loses = self.keeps
        self.fronts = {it: self.front(it) for it in SITES}

    def front(self, site):
        """Where clients reach a site."""
        made = Passage(self.socket(), self.target(site), lambda asker: self.socket())
        made.sees = lambda datagram: self.keeps(0, site, datagram)
        made.adds = lambda reply: (reply[:-32], reply[:-1], reply[:-32] + bytes(32))
        return made

    def keeps(self, *seen):
        self.seen.append(seen)

    def clients_members(self, file):
        """The members file of clients, for whom it stands in place of all sites."""
        ports = [it.front.getsockname()[1] for it in self.fronts.values()]
        return write_members(file, [self.network.place(RELAY, it) for it in ports])

    def throw(self, sender, to, datagram):
        """Sends it, in the name of its sender, to the site."""
        made = self.sockets[to, sender] if sender else self.asker
        made.sendto(datagram, self.target(to))

    def await_all(self, site):
        """Waits until the site has taken what was sent to it: it answers a client's query that was
        seen before."""
        query = next(it for sender, _, it in self.seen if not sender and it[3] == QUERY)
        for _ in range(MOST_TRIES):
            self.gate.sendto(query, self.target(site))
            try:
                return self.gate.recv(2048)
            except TimeoutError:
                pass
        raise TimeoutError(f"site {site} answers no more")

    def attack(self, datagrams, count):
        """Sends so many of these, in bursts, each of which the sites take before the next."""
        datagrams = iter(datagrams)
        for at in range(0, count, BURST):
            for it in itertools.islice(datagrams, min(BURST, count - at)):
                self.throw(*it)
            for site in SITES:
                self.await_all(site)

    def ways(self, chance, bags):
        """What it may send, each without end."""
        seen = list(self.seen)
        pick = lambda: chance.choice(seen)
        forged = lambda: self.forged(chance, bags)
        of = lambda make: map(lambda _: make(chance, *pick()), itertools.count())
        from_nothing = lambda make: map(lambda _: make(chance, *forged()), itertools.count())
        return {
            "replays": of(lambda _, *it: it),
            "cuts": of(cut),
            "turned bits": of(turned),
            "other addressees": of(to_another),
            "without a tag": from_nothing(lambda _, *it: it),
            "a wrong tag": from_nothing(self.wrongly_tagged),
            "an old tag": from_nothing(self.tagged_by_old),
        }

    def forged(self, chance, bags):
        """A datagram of any kind, in the name of one that may send it."""
        to, sender = chance.sample(SITES, 2)
        object, bag = chance.choice([*bags, "new"]), chance.randbytes(64)
        path = chance.choice([*bags.values()])
        made = chance.choice([*of_each_kind(sender, bag, object), *of_clients(path, object)])
        return made.sender, to, made.bytes()

    def wrongly_tagged(self, chance, sender, to, datagram):
        """With a tag by nothing, by a new key, or by the clients' for a message between sites."""
        tag = chance.choice([chance.randbytes(32), tagged(new_key(), datagram)[-32:]])
        if sender and chance.random() < 0.5:
            tag = tagged(self.clients, datagram)[-32:]
        return sender, to, datagram + tag

    def tagged_by_old(self, _, sender, to, datagram):
        """With a tag by a key that was in use before."""
        sites, clients = self.old
        return sender, to, tagged(sites if datagram[3] < FIRST_OF_CLIENTS else clients, datagram)


def cut(chance, sender, to, datagram):
    return sender, to, datagram[: chance.randrange(len(datagram))]


def turned(chance, sender, to, datagram):
    changed = bytearray(datagram)
    changed[chance.randrange(len(changed))] ^= 1 << chance.randrange(8)
    return sender, to, bytes(changed)


def to_another(chance, sender, to, datagram):
    return sender, chance.choice([it for it in SITES if it not in (sender, to)]), datagram
