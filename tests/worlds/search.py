"""The worlds that an order of events gives, each of which a run of the program has passed."""
import collections
import itertools

from orders import PROPOSALS
from program import BAGS, Schedule, Wrong
from world import DELIVER, Courses, Event, chosen


def fault_of(said, sites):
    """What is wrong with what was said of a slot; None where nothing is."""
    known = {it[-1] for it in said.reports if "known" in (it[0], it[4])}
    elected = chosen(said.sent, sites)
    if len(known) > 1:
        return "two bags are known"
    if len(elected) > 1:
        return "quorums have voted for two bags"
    if not known <= elected:
        return "a bag is known for which no quorum has voted"
    if not elected <= BAGS:
        return "a quorum has voted for a bag that nobody deposited"
    return None


class Search:
    """All worlds of an order, level by level: each world of a level has one event more than one of
    the level before. With a count, it stops once there are so many. Where `votes` is set, Accepteds
    arrive like all other datagrams; else only when all else is done."""

    def __init__(self, program, sites, order, bounds, votes=False, most=None, batch=400):
        self.program, self.sites, self.order, self.bounds = program, sites, order, bounds
        self.votes, self.most, self.batch = votes, most, batch
        self.courses, self.seen, self.worlds = Courses(sites), set(), set()

    @property
    def count(self):
        return f"{len(self.worlds)} worlds"

    def run(self):
        level, ended = [self.courses.start(PROPOSALS, self.bounds)], []
        while level or ended:
            steps = [(it, *step) for it in level for step in self.order(self.sites, it)]
            self.discover(steps, ended)
            following, went_on = self.after(steps)
            ended = [it for it in level if id(it) not in went_on]
            level = following

    def discover(self, steps, ended):
        """Runs one of the steps, after its world, for each step of a course that isn't known; and
        the worlds that have ended, to their ends."""
        unknown = {}
        for world, event, *_ in steps:
            step = self.courses.unknown(world, event)
            if step:
                unknown.setdefault(step, (world, event))
        batches = list(self.batches(list(unknown.items()), lambda it: it[1][0]))
        asked = []
        for some in batches:
            schedule = Schedule(self.sites, [world for _, (world, _) in some])
            for slot, (_, (_, event)) in enumerate(some):
                schedule.add(slot, event)
            asked.append(schedule)
        found = self.said(itertools.chain(asked, self.closing(ended)))
        for some, of_each in zip(batches, found):
            for (step, (world, _)), said in zip(some, of_each):
                self.courses.learn(step, tuple(said.sent[len(world.sent) :]))
        for _ in found:
            pass

    def after(self, steps):
        """The worlds after these steps that weren't seen before, and the ids of those from which
        one of them was reached first."""
        following, went_on = [], set()
        for world, event, waits, bounds in steps:
            if self.most and len(self.worlds) >= self.most:
                break
            new = self.courses.after(world, event, waits, bounds)
            new = new._replace(waits=waits + self.waiting(new.sent, len(world.sent)))
            if new.key in self.seen:
                continue
            self.seen.add(new.key)
            self.worlds.add(new.places)
            following.append(new)
            went_on.add(id(world))
            if len(chosen(new.sent, self.sites)) > 1:
                list(self.said(self.closing([new])))
        return following, went_on

    def waiting(self, sent, first):
        """The arrivals of the datagrams from the first of these on."""
        places = range(first, len(sent))
        return tuple(Event(DELIVER, it) for it in places if self.votes or not sent[it].is_vote)

    def closing(self, worlds):
        """Schedules that run worlds to their ends."""
        for some in self.batches(worlds, lambda it: it):
            schedule = Schedule(self.sites, some)
            schedule.close()
            yield schedule

    def said(self, schedules):
        """What the program says of the worlds of each schedule: nothing wrong, and what their
        courses say."""
        for schedule, said in self.program.said_of_each(schedules):
            self.judge(schedule, said)
            yield said

    def judge(self, schedule, found):
        """Finds what is wrong with what was said of each world of a schedule."""
        for world, said in zip(schedule.worlds, found):
            why = fault_of(said, self.sites)
            if tuple(said.sent[: len(world.sent)]) != world.sent:
                why = why or "a site sends something else where the same has reached it"
            if [it[0] for it in said.reports[:2]] != ["registered"] * 2:
                why = why or "a deposit isn't registered"
            if why:
                alone = Schedule(self.sites, [world])
                alone.close()
                raise Wrong(why, alone.lines)

    def batches(self, items, world_of):
        """The items in lists of those whose worlds can have one schedule."""
        groups = collections.defaultdict(list)
        for item in items:
            groups[world_of(item).restarted[0]].append(item)
        for group in groups.values():
            for first in range(0, len(group), self.batch):
                yield group[first : first + self.batch]
