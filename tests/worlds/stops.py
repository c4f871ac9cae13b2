"""A stop or a failure within each call of one agreement, and a second proposer after it."""
from program import Wrong, opening
from search import fault_of

SITES = 3
FATES = [f"{how} {call} {kept}" for how in ("stop", "fail") for call in (1, 2) for kept in (0, 999)]
FATES += [f"stop 3 {sent}" for sent in range(3)]


def calls(program):
    """The calls of three sites that agree: the schedule before each, the call, and its site."""
    lines = [*opening(SITES), "deposit 2 2 a 1"]
    for call in ("deposit 1 1 a 1", "propose 1 a 1"):
        yield lines, call, 1
        lines = [*lines, call]
    for number in range(1, 19):
        (said,) = program.said(lines)
        yield lines, f"deliver {number}", said.sent[number - 1].to
        lines = [*lines, f"deliver {number}"]


def ends(program, lines):
    """The second proposer's datagrams arrive with those that wait, the oldest first, or before
    them."""
    lines, first = [*lines, "propose 2 a 1"], len(program.said(lines)[0].sent)
    closing = ["propose 1 a 1", "pump 100", *(f"query {site} a 1" for site in (1, 2, 3))]
    yield [*lines, "pump 100", *closing]
    while first < (sent := len(program.said(lines)[0].sent)):
        lines += [f"deliver {it}" for it in range(first + 1, sent + 1)]
        first = sent
    yield [*lines, "pump 100", *closing]


class Stops:
    """Each fate at each call, with both ends."""

    def __init__(self, program):
        self.program, self.tried = program, 0

    @property
    def count(self):
        return f"{self.tried} schedules"

    def run(self):
        for before, call, site in calls(self.program):
            for fate in FATES:
                for lines in ends(self.program, [*before, f"{call} {fate}", f"start {site}"]):
                    self.judge(lines)

    def judge(self, lines):
        (said,) = self.program.said(lines)
        self.tried += 1
        why = fault_of(said, SITES)
        if not why and all(it[4] != "known" for it in said.reports[-SITES:]):
            why = "no site knows a bag in the end"
        if why:
            raise Wrong(why, lines)
