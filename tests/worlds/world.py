"""A world of one slot: what has happened in it, and what has reached each site.

What a site answers follows from what has reached it, in order: its course. So each step of a course
is learned once, and two schedules that give each site the same course lead to one world.
"""
from typing import NamedTuple

# What an event does; the first two are also inputs of a site, beside the bytes of datagrams.
PROPOSE, RESTART, DELIVER = "propose", "restart", "deliver"


class Datagram(NamedTuple):
    """A datagram on its way to a site: its bytes in hex, without the version and the checksum."""

    to: int
    text: str

    @property
    def sender(self):
        return int(self.text[24:26], 16)

    @property
    def ballot(self):
        """The ballot that it is about; of a refusal the one that was asked."""
        return self.text[30:40]

    @property
    def proposer(self):
        return int(self.ballot[8:], 16)

    @property
    def bag(self):
        """The bag that an Accepted names."""
        return self.text[40:168]

    @property
    def is_vote(self):
        return self.text[6:8] == "04"


class Event(NamedTuple):
    """`propose` of a site, `deliver` of a datagram of the world, by its place among those sent, or
    `restart` of sites: they stop between calls, and start again."""

    word: str
    argument: object


class Bounds(NamedTuple):
    """What may still happen: how often the turn goes to the other proposal, and how many datagrams
    are late, arrive again, and how many restarts there are. `turn` has whose turn it is."""

    switches: int = 0
    late: int = 0
    repeats: int = 0
    stops: int = 0
    turn: int = 0


class World(NamedTuple):
    """`counts` has how many datagrams each event sent; `places`, where each site is in its course;
    `waits`, the events that may come, the oldest first."""

    events: tuple
    counts: tuple
    places: tuple
    sent: tuple
    waits: tuple
    bounds: Bounds

    @property
    def key(self):
        """Worlds of one key have the same worlds after them."""
        waits = (self.sent[it.argument] if it.word == DELIVER else it for it in self.waits)
        return self.places, self.bounds, frozenset(waits)

    @property
    def restarted(self):
        """The sites that restarted, and where among the events."""
        for place, event in enumerate(self.events):
            if event.word == RESTART:
                return event.argument, place
        return (), len(self.events)


class Courses:
    """The steps of courses that are known: what a site sends at a place for an input, and the place
    after it."""

    def __init__(self, sites):
        self.sites, self.steps = sites, {}

    def start(self, waits, bounds):
        """The world in which nothing has happened but the deposits."""
        return World((), (), tuple(range(self.sites)), (), waits, bounds)

    def unknown(self, world, event):
        """The step of an event, where it isn't known yet. A restart sends nothing."""
        if event.word == RESTART:
            return None
        step = self.step(world.places, *input_of(world, event))
        return None if step in self.steps else step

    def learn(self, step, sends):
        self.steps[step] = self.sites + len(self.steps), sends

    def after(self, world, event, waits, bounds):
        """The world after an event that isn't unknown."""
        places = list(world.places)
        if event.word == RESTART:
            sends = ()
            for site in event.argument:
                step = self.step(places, site, RESTART)
                if step not in self.steps:
                    self.learn(step, ())
                places[site - 1], _ = self.steps[step]
        else:
            site, taken = input_of(world, event)
            places[site - 1], sends = self.steps[self.step(places, site, taken)]
        events, counts = (*world.events, event), (*world.counts, len(sends))
        return World(events, counts, tuple(places), (*world.sent, *sends), waits, bounds)

    def step(self, places, site, taken):
        return places[site - 1], taken


def input_of(world, event):
    """The site that a `propose` or a `deliver` reaches, and with what."""
    if event.word == PROPOSE:
        return event.argument, PROPOSE
    return world.sent[event.argument]


def chosen(sent, sites):
    """The bags for which a quorum of the sites has voted in one ballot."""
    votes = {}
    for datagram in sent:
        if datagram.is_vote:
            votes.setdefault((datagram.ballot, datagram.bag), set()).add(datagram.sender)
    return {bag for (_, bag), voters in votes.items() if 2 * len(voters) > sites}
