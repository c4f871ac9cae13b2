"""Makes each allocation fail in turn of `probe serving`, on the seven turns in which a site without
other members decides a bag (data/turns/a-bag-is-agreed.run).

An allocation of `serve` that fails is one of a call of the site, which is refused then, and a line
or a reply says so, and the turns after it go on, with all that doesn't follow from that call; or
serving ends with `memory` or, where a line has no room, with `output`: then the turns before have
all their datagrams and lines. There is no third: a site that falls silent after a refusal fails.
Outside `serve`, whose two ends are marked by an allocation each, the answer is `memory`. Imported
by `allocations`."""
import collections

from failing_allocation import run
from messages import DEPOSIT_REPLY, QUERY_REPLY, Message

MARK = 7777
# The client's port, and the turns that have a line of the site.
CLIENT, WITH_A_LINE = 9000, (1, 6, 7)
REFUSED, NO_MEMORY = "refused 1 14", 14


def turns_of(moves):
    """The datagrams of each turn, by its number."""
    turns = {}
    for it in moves:
        if it == "turn":
            turns[len(turns) + 1] = []
        else:
            turns[len(turns)].append(it)
    return turns


def reply(kind, code, bag):
    body = bytes([code]) + bytes.fromhex(bag)
    return f"{CLIENT} {Message(kind, 1, 'a', 1, body).bytes().hex()}"


# What a call without memory changes: in some turns other datagrams, and another line or none. The
# site's own datagrams come to it whatever it has sent, so it votes and learns all the same.
NOTHING = ([], None)


def changes_of(bag):
    """These changes, where the bag is this one, by what was refused."""
    without = reply(DEPOSIT_REPLY, NO_MEMORY, 128 * "0")
    pending = ([reply(QUERY_REPLY, 1, bag)], f"reply 1 a 1 pending {bag}")
    return {
        # The deposit of a folder that can't be read has a reply alone.
        "the folder": {1: ([without], None), 2: NOTHING, 4: NOTHING},
        "the deposit": {1: ([without], REFUSED), 2: NOTHING, 4: NOTHING},
        "the proposal": {2: ([], REFUSED), 4: NOTHING},
        "the Prepare": {3: ([], REFUSED)},
        "the Promise": {4: ([], REFUSED)},
        "the Accept": {5: ([], REFUSED)},
        "the Accepted": {6: ([], REFUSED), 7: pending},
    }


def answer(turns, last, word):
    """What is printed of these turns and of the datagrams of a last one, which has no line."""
    moves = [it for sent, _ in turns for it in ["turn", *sent]] + last
    return "".join(f"{it}\n" for it in [*moves, word, *(line for _, line in turns if line)])


class Answers:
    """The whole answer's lines, and each answer that may be given where an allocation of `serve`
    fails, with its name."""

    def __init__(self, wanted):
        end = wanted.index("ended")
        self.sent, lines = turns_of(wanted[:end]), dict(zip(WITH_A_LINE, wanted[end + 1 :]))
        self.changes = changes_of(lines[1].split()[-1])
        whole = {it: (self.sent[it], lines.get(it)) for it in self.sent}
        self.names = {answer(whole.values(), [], "ended"): "nothing"}
        for name, changes in self.changes.items():
            self.names[answer((whole | changes).values(), [], "ended")] = name
        for number in self.sent:
            before = [whole[it] for it in range(1, number)]
            for last in ([], ["turn"], ["turn", *self.sent[number]]):
                self.names[answer(before, last, "memory")] = f"turn {number}"
            self.names[answer(before, ["turn", *self.sent[number]], "output")] = "a line"

    def all(self):
        """The names of all that have to come up."""
        return {*self.changes, *(f"turn {it}" for it in self.sent), "a line"}


def each_fails(count, program, input, wanted, said):
    """Tries each allocation in turn. `input` has the turns, and `wanted` the whole answer."""
    answers, ends = Answers(wanted.splitlines()), collections.Counter()
    whole = run(program, "serving", said, 0, input, MARK)
    count.expect("serving", (whole.status, whole.said.decode()), (0, wanted))
    first, last = whole.marks
    for failing in range(1, whole.calls + 1):
        ran = run(program, "serving", said, failing, input, MARK)
        if first < failing < last:
            end = answers.names.get(ran.said.decode()) if ran.status == 0 else None
        else:
            end = "outside" if (ran.status, ran.said) == (1, b"memory\n") else None
        ends[end] += 1
        if end:
            count.passed += 1
        else:
            count.expect(f"serving where allocation {failing} fails", ran, "an answer that may be")
    counts = ", ".join(f"{name}: {number}" for name, number in ends.items())
    print(f"allocations of probe serving that failed: {whole.calls}; {counts}", flush=True)
    count.expect("serving: answers that never came", answers.all() - {*ends}, set())
