"""Which events may come next in a world.

An order gives each event that may come, with what waits after it, but for the datagrams that it
sends, and what is left of the bounds. What never comes is lost.
"""
from world import DELIVER, PROPOSE, RESTART, Event

PROPOSERS = (1, 2)
PROPOSALS = tuple(Event(PROPOSE, site) for site in PROPOSERS)


def any_order(sites, world):
    """Every datagram arrives at any time after it was sent."""
    for event in world.waits:
        yield event, without(world.waits, [event]), world.bounds
    yield from repeats_and_restarts(sites, world)


def in_turns(sites, world):
    """The datagrams of a proposal arrive in the order in which they were sent, but for those that
    are late: they come after all else. The turn goes to the other proposal where nothing of the own
    one waits, and else as often as the bounds say."""
    queues = {site: [] for site in PROPOSERS}
    for event in world.waits:
        queues[proposal_of(world, event)].append(event)
    bounds = world.bounds
    for site, queue in queues.items():
        left = bounds.switches - (bounds.turn not in (0, site) and bool(queues[bounds.turn]))
        for late, event in enumerate(queue[: bounds.late + 1] if left >= 0 else ()):
            gone = bounds._replace(switches=left, late=bounds.late - late, turn=site)
            yield event, without(world.waits, queue[: late + 1]), gone
    yield from repeats_and_restarts(sites, world)


def repeats_and_restarts(sites, world):
    """A datagram arrives a second time, a site restarts, or all do at one moment."""
    bounds = world.bounds
    if bounds.repeats:
        for event in dict.fromkeys(world.events):
            if event.word == DELIVER and world.events.count(event) == 1:
                yield event, world.waits, bounds._replace(repeats=bounds.repeats - 1)
    if bounds.stops:
        every = tuple(range(1, sites + 1))
        for some in [*((site,) for site in every), every]:
            yield Event(RESTART, some), world.waits, bounds._replace(stops=bounds.stops - 1)


def without(waits, gone):
    return tuple(it for it in waits if it not in gone)


def proposal_of(world, event):
    return event.argument if event.word == PROPOSE else world.sent[event.argument].proposer
