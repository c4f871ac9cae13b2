"""A run in words, as `run --words` has to say it. How a thing is said is the program's choice, and
stands here once more; what is said, each number, site, ballot, bag, kind and count, is that of the
rules. No test of itself."""

from bags import MOST_PARTS
from rules import escaped

# Why a site refuses, and why a tree is no valid bag.
REFUSALS = {
    11: "another bag was deposited",
    12: "another bag is known",
    16: "there is no deposit for the slot",
    17: "no round is left for the slot",
    18: "a bag is known for the slot",
    19: "there is neither a vote nor a deposit for the slot",
}
FAULTS = {
    1: "there is no bagit.txt",
    2: "bagit.txt is no bag declaration",
    3: "the declared version is not supported",
    4: "the declared encoding is not supported",
    5: "there is a fetch.txt",
    6: "there is no payload folder",
    7: "there is no manifest-sha512.txt",
    8: "a manifest is of an unknown algorithm",
    9: "a line of a manifest is malformed",
    10: "a manifest lists an unsafe path",
    11: "a payload manifest lists a path twice",
    12: "a listed file is missing",
    13: "a payload file is not listed",
    14: "a file has another digest than the listed one",
}
HEADING = """\
#1 is the first datagram that was sent, and bag 1 is the bag of tree 1;
(2, 1) is the ballot of round 2 of site 1. A quorum {}.

"""
FAILS = "the device of site {} fails: it forgets what it had heard, and has to be started again"
UNOPENED = "site {} does nothing: its device has failed, and it has to be started again"
UNCOUNTED = (
    "; not counted: the ballot isn't the last that the site has issued since it was opened"
)


class Words:
    """The words of a run."""

    def __init__(self, run):
        self.run, self.total = run, sum(run.weights)
        self.needed = self.total // 2 + 1
        self.has_weights = set(run.weights) != {1}
        self.has_slots = len(run.slots) > 1

    def text(self):
        what = f"is {self.needed} of {self.total} sites"
        if self.has_weights:
            what = f"has {self.needed} of all weight, which is {self.total}"
        told = [self.told(it) for it in self.run.events if it.deed != "tree" or it.said]
        return HEADING.format(what) + "".join(told) + "\n" + self.ending()

    def told(self, event):
        """The words of an event, and its line."""
        fate = f" {event.fate[0]} {event.fate[1]} {event.fate[2]}" if event.fate else ""
        text = f"line {event.line}, {self.command(event)}{fate}: {self.what(event)}"
        return text + self.sends(event) + "\n" + (f"    {event.said}\n" if event.said else "")

    def command(self, event):
        if event.deed == "tree":
            path = [] if event.path is None else [escaped(event.path)]
            return " ".join([event.fills, str(event.number), *path])
        parts = [event.deed]
        parts += [str(event.site)] if event.deed not in ("tree", "deliver") else []
        parts += [str(event.number)] if event.deed in ("deposit", "ask", "deliver") else []
        parts += [str(event.slot)] if event.slot and event.deed != "deliver" else []
        return " ".join(parts)

    def what(self, event):
        if event.outcome.startswith("skip "):
            return self.skipped(event, event.outcome[5:])
        if not event.delivered:
            return self.came_of(event) + self.stopped(event) + self.kept(event)
        text = self.head(event.delivered) + f" of site {event.delivered.sender}"
        text += self.tail(event.delivered)
        if event.is_done:
            return text + self.heard(event) + self.consequence(event) + self.kept(event)
        return text + "; " + self.interrupted(event) + self.stopped(event) + self.kept(event)

    # ---- messages

    def head(self, datagram):
        """The kind of a message, its slot where there are several, and its ballot."""
        message = datagram.message
        parts = [message.kind, *([str(message.slot)] if self.has_slots else [])]
        return " ".join([*parts, *([str(message.ballot)] if message.ballot else [])])

    def tail(self, datagram):
        """What else it says."""
        message, tree = datagram.message, self.run.tree_of(datagram.message.bag)
        if message.kind == "Promise":
            return f", vote {message.other} bag {tree}" if message.other else ", no vote"
        if message.kind == "Refused":
            return f", promised {message.other}"
        return f", bag {tree}" if message.bag else ""

    def message(self, datagram):
        return self.head(datagram) + self.tail(datagram)

    def sends(self, event):
        if not event.sent:
            return ""
        numbers = " ".join(f"#{it.number}" for it in event.sent)
        sites = ", ".join(str(it.to) for it in event.sent)
        return f"; sends {numbers} {self.message(event.sent[0])}, to {sites}"

    # ---- what came of an event

    def skipped(self, event, reason):
        before = event.sent_before
        sent = {0: "no datagram was sent yet", 1: "only one datagram was sent so far"}
        has = "is declared already" if event.fills == "tree" else "isn't declared"
        lost = f", and #{event.number} is lost" if event.deed == "deliver" else ""
        return {
            "site": f"there is no such site: the sites are 1 to {len(self.run.weights)}",
            "tree": f"tree {event.number} {has}",
            "path": why_no_path((event.path or b"").decode()),
            "datagram": sent.get(before, f"only {before} datagrams were sent so far"),
            "formed": "the bytes are a message, which only a site can send",
            "down": f"site {event.site} is down{lost}",
            "up": f"site {event.site} is up already",
        }[reason]

    def came_of(self, event):
        site, tree, outcome = event.site, event.bag_said, event.outcome
        if outcome == "registered":
            return f"bag {tree} is site {site}'s deposit " + (
                "from now on" if event.made else "already"
            )
        if outcome == "up":
            count = int(event.said.split()[-1])
            records = "1 record" if count == 1 else f"{count} records"
            return f"site {site} is up again, with {records}; what it had heard is forgotten"
        if event.is_done:
            begins = event.deed in ("propose", "recover")
            issued = f"issues ballot {event.made.ballot}" if begins else ""
            return f"site {site} {issued or f'asks site {event.number}'}"
        told = {
            "reply known": f"site {site} knows that bag {tree} was chosen",
            "reply pending": f"site {site} knows of none; bag {tree} is its own deposit",
            "reply nothing": f"site {site} knows of none, and has no deposit",
            "dropped": f"site {site} drops these bytes, which are no message of the federation",
        }
        return told.get(outcome) or self.interrupted(event)

    def interrupted(self, event):
        site = event.site
        if event.outcome == "refused":
            why = REFUSALS.get(event.refusal) or f"no valid bag: {FAULTS[event.fault]}"
            return f"site {site} refuses: {why}"
        how = {"failed": FAILS, "unopened": UNOPENED, "down": "site {} stops"}
        return how[event.outcome].format(site)

    def stopped(self, event):
        """How a stop met the call: in a device call, or after some of its datagrams."""
        if not event.fate or event.fate[0] != "stop" or event.outcome != "down":
            return ""
        if event.fate[1] == 3:
            sent = len(event.sent)
            number = "a datagram" if sent == 1 else f"{sent} datagrams"
            none = " before any datagram of it went out"
            return f" once {number} of it went out" if sent else none
        if not event.made:
            return " before it is done, with nothing of it on record"
        return f" as it {'writes' if event.fate[1] == 1 else 'syncs'} its record, which is kept"

    def kept(self, event):
        """What is on record since."""
        record = event.record
        if not record:
            return ""
        return "; on record: " + {
            "deposit": f"deposit of bag {self.run.tree_of(record.bag)}",
            "round": f"round {record.ballot.round if record.ballot else ''}",
            "promise": f"promise {record.ballot}",
            "vote": f"vote {record.ballot} for bag {self.run.tree_of(record.bag)}",
            "known": f"known bag {self.run.tree_of(record.bag)}",
        }[record.kind]

    # ---- arrivals

    def heard(self, event):
        site, message = event.site, event.delivered.message
        if message.kind in ("Prepare", "Accept"):
            does = "promises" if message.kind == "Prepare" else "votes for it"
            if event.sent[0].message.kind == "Refused":
                standing = event.sent[0].message.other
                return f"; site {site} refuses, since it has promised {standing}"
            return f"; site {site} {does if event.made else 'has done so before'}"
        if message.kind in ("Promise", "Accepted"):
            return self.counted(event, "promised" if message.kind == "Promise" else "voted so")
        if message.kind == "Refused":
            return f"; the next round of site {site} is above {message.other.round}"
        if message.kind == "Ask":
            return f"; site {site} {'tells it' if event.sent else 'knows of no bag'}"
        return ""

    def counted(self, event, verb):
        if event.count is None:
            return UNCOUNTED
        heard, needed = event.count[0], self.needed
        if self.has_weights:
            return f"; weight {heard} {verb}, {needed} needed"
        return f"; {heard} of {needed} {verb}" if heard <= needed else (
            f"; {heard} {verb}, {needed} needed"
        )

    def consequence(self, event):
        if event.outcome == "known":
            return f": site {event.site} knows that bag {event.bag_said} was chosen"
        if event.delivered.message.kind != "Promise" or not event.sent:
            return ""
        if event.count[1]:
            return f": it proposes the bag of the highest vote, {event.count[1]}"
        return ", no vote named: it proposes its own deposit"

    # ---- the end

    def ending(self):
        """What was never delivered, and what came only to a site that was down."""
        never = [it for it in self.numbers() if it not in self.run.passages]
        lost = [it for it in self.numbers() if self.run.passages.get(it, "-")[0] == "lost"]
        text = f"never delivered:{listed(never)}\n"
        return text + (f"lost at a site that was down:{listed(lost)}\n" if lost else "")

    def numbers(self):
        return [it.number for it in self.run.datagrams]


def why_no_path(path):
    """Why a tree can have no file of this path."""
    parts = path.split("/")
    for part, why in (("..", "a path has no .."), (".", "a path has no part ."),
                      ("", "a path has no empty part, and neither begins nor ends with a slash")):
        if part in parts:
            return why
    if path == "data":
        return "data is the payload's folder"
    if len(parts) > MOST_PARTS:
        return f"a path has at most {MOST_PARTS} parts"
    return "the tree has a file or a folder there, or a file in place of one of its folders"


def listed(numbers):
    return "".join(f" #{it}" for it in numbers) or " none"


# A pattern for each thing that words can say, all of which have to come up somewhere.
PIECES = [
    r"A quorum is \d+ of \d+ sites\.",
    r"A quorum has \d+ of all weight, which is \d+\.",
    *(rf": {it}\n" for it in (
        r"there is no such site: the sites are 1 to \d+", r"tree \d+ isn't declared",
        r"tree \d+ is declared already", r"data is the payload's folder",
        r"no datagram was sent yet", r"only \d+ datagrams were sent so far",
        r"the bytes are a message, which only a site can send", r"site \d+ is down",
        r"site \d+ is down, and #\d+ is lost", r"site \d+ is up already",
        r"site \d+ knows that bag \d+ was chosen", r"site \d+ knows of none, and has no deposit",
        r"site \d+ knows of none; bag \d+ is its own deposit",
        r"site \d+ drops these bytes, which are no message of the federation",
        r"bag \d+ is site \d+'s deposit already", r"site \d+ stops",
        *(rf"site \d+ refuses: {it}" for it in REFUSALS.values() if "round" not in it),
        rf"site \d+ refuses: no valid bag: {FAULTS[7]}", FAILS.format(r"\d+"),
        UNOPENED.format(r"\d+"), r"site \d+ stops before it is done, with nothing of it on record",
        r"site \d+ stops before any datagram of it went out",
    )),
    r": bag \d+ is site \d+'s deposit from now on; on record: deposit of bag \d+\n",
    r"issues ballot \(\d+, \d+\); on record: round \d+; sends #\d+",
    r": site \d+ asks site \d+; sends", r"; site \d+ promises; on record: promise \(",
    r"with 1 record; what it had heard is forgotten\n", r"with \d+ records; what it had heard",
    r"what it had heard is forgotten; on record: \w+",
    r"; site \d+ votes for it; on record: vote \(\d+, \d+\) for bag \d+; sends",
    r"; site \d+ has done so before; sends",
    r"; site \d+ refuses, since it has promised \(\d+, \d+\)",
    r"; the next round of site \d+ is above \d+\n", r"; site \d+ knows of no bag\n",
    r"; site \d+ tells it; sends #\d+ Known", UNCOUNTED,
    *(rf"; {how} {did}" for did in ("promised", "voted so") for how in (r"\d+ of \d+",)),
    *(rf"; {how} {did}, \d+ needed" for did in ("promised", "voted so") for how in (
        r"\d+", r"weight \d+")),
    r": it proposes the bag of the highest vote, \(\d+, \d+\); sends",
    r", no vote named: it proposes its own deposit; sends",
    r": site \d+ knows that bag \d+ was chosen; on record: known bag \d+\n",
    r"stops as it writes its record, which is kept; on record",
    r"stops as it syncs its record, which is kept; on record",
    r"stops once a datagram of it went out", r"stops once \d+ datagrams of it went out",
    r", vote \(\d+, \d+\) bag \d+; ", r", no vote; ", r", promised \(\d+, \d+\); the next round",
    r"never delivered: none\n", r"never delivered: #\d+", r"lost at a site that was down: #\d+",
    r"Prepare \S+ \d+ \(\d+, \d+\) of site \d+; ",
]
