"""A run: what happens in each event of a schedule, by docs/FORMATS.md and docs/PROTOCOL.md, by a
second writer who shares nothing with the program. No test of itself."""
import hashlib
import urllib.parse
from typing import NamedTuple, Optional

from bags import Tree
from rules import Effect, Message, Site, Slot

WITH_FATES = ("deposit", "propose", "recover", "deliver", "ask")
KINDS = ["Prepare", "Promise", "Accept", "Accepted", "Refused", "Ask", "Known"]
# What of a client may come, with its body's bytes; a Deposit says how long its path is.
CLIENTS = {16: None, 17: 0, 18: 0}
REPLIES = {32: {0, 11, 12, 13, 14, 15, *range(21, 27), *range(41, 55)}, 33: {0, 1, 2, 15}}
WITH_BAG = {32: {0, 11, 12}, 33: {0, 1}}


class Datagram(NamedTuple):
    """A message on its way: `event` is the place of the event that sent it."""

    number: int
    sender: int
    to: int
    event: int
    message: Message


class Event:
    """An event: what it asks for, and what came of it."""

    def __init__(self, line, deed, number=0, fate=None, site=0, slot=None):
        self.line, self.deed, self.number, self.fate = line, deed, number, fate
        self.site, self.slot = site, slot
        # A word for what came of it, the line that it printed, the datagrams that it sent.
        self.outcome, self.said, self.sent, self.sent_before = "done", None, [], 0
        self.refusal = self.fault = 0
        # The record that this call made, where it is kept; the one that is seen since, which a
        # failed device had kept; the tree that the record or the line names.
        self.made = self.record = None
        self.tree = self.bag_said = 0
        # The command of a tree, and the path of the file that it adds, in bytes.
        self.fills, self.path = None, None
        # What it delivered; how much was heard of that, and the highest vote's ballot.
        self.delivered, self.count = None, None

    @property
    def is_done(self):
        return self.outcome in ("done", "known")


class Run:
    """A run of a schedule's text. Its lines name bags by their trees, or by their identities."""

    def __init__(self, text, has_identities=False):
        self.has_identities = has_identities
        self.events, self.datagrams, self.lines, self.slots = [], [], [], set()
        self.trees, self.seen, self.named = {}, {}, set()
        # Of each datagram, how it fared: `arrived` or `lost`, and where among the events.
        self.passages = {}
        lines = [it.removesuffix("\r") for it in text.split("\n")]
        for number, line in enumerate(lines, 1):
            words = [it for it in line.split(" ") if it]
            if words and not line.startswith("#"):
                self.command(number, words)

    # ---- commands

    def command(self, line, words):
        word = words[0]
        if word == "federation":
            self.federation, count = int(words[1]), int(words[2])
            self.weights = [int(it) for it in words[3:]] or [1] * count
            self.sites = {it: Site(it, self.weights) for it in range(1, count + 1)}
            self.state = dict.fromkeys(self.sites, "up")
            # What is in the cell of a site whose device has failed, but for what the site knows of.
            self.hidden, self.recorded = {}, dict.fromkeys(self.sites, 0)
            # The last ballot of each slot that each site has issued since it was opened.
            self.last_issued = {it: {} for it in self.sites}
        elif word == "pump":
            self.pump(line, int(words[1]))
        else:
            self.run_event(self.event_of(line, words), words)

    def pump(self, line, turns):
        for _ in range(turns):
            number = next((it.number for it in self.datagrams if it.number not in self.named), None)
            if number is None:
                return
            self.run_event(Event(line, "deliver", number), ["deliver", str(number)])

    def event_of(self, line, words):
        word, rest, fate = words[0], words[1:], None
        if word in WITH_FATES and rest[-3:-2] in (["stop"], ["fail"]):
            rest, fate = rest[:-3], (rest[-3], int(rest[-2]), int(rest[-1]))
        if word in ("tree", "folder", "file"):
            event = Event(line, "tree", int(rest[0]))
            event.fills = word
            event.path = urllib.parse.unquote_to_bytes(rest[1]) if word == "file" else None
            return event
        numbers = [int(it) for it in rest[:2] if it.isdigit()]
        slot = None
        if word in ("deposit", "propose", "recover", "ask", "query"):
            slot = Slot(urllib.parse.unquote_to_bytes(rest[-2]), int(rest[-1]))
            self.slots.add(slot)
        if word == "deliver":
            return Event(line, word, numbers[0], fate)
        number = numbers[1] if word in ("deposit", "ask") else 0
        return Event(line, word, number, fate, numbers[0], slot)

    def run_event(self, event, words):
        event.sent_before = len(self.datagrams)
        if event.deed == "deliver":
            self.named.add(event.number)
            if 1 <= event.number <= len(self.datagrams):
                event.delivered = self.datagrams[event.number - 1]
                event.site, event.slot = event.delivered.to, event.delivered.message.slot
        reason = self.why_skipped(event, words)
        if reason:
            event.outcome, event.said = f"skip {reason}", f"skip {event.line} {reason}"
        elif event.deed != "tree":
            self.happens(event, words)
        self.note(event)

    def why_skipped(self, event, words):
        """The first reason why an event can't apply."""
        deed, word = event.deed, words[0]
        sites = [event.site] if deed not in ("tree", "deliver") else []
        sites += [event.number] if deed == "ask" else []
        if any(it not in self.sites for it in sites):
            return "site"
        if deed == "tree":
            return self.why_no_tree(word, words)
        if deed == "deposit" and event.number not in self.trees:
            return "tree"
        if deed == "deliver" and event.delivered is None:
            return "datagram"
        if deed == "raw" and self.is_message(bytes.fromhex(words[2].replace("-", ""))):
            return "formed"
        if deed != "start" and self.state[event.site] == "down":
            return "down"
        return "up" if deed == "start" and self.state[event.site] == "up" else None

    def why_no_tree(self, word, words):
        number = int(words[1])
        if (word == "tree") == (number in self.trees):
            return "tree"
        if word == "tree":
            self.trees[number] = Tree()
        elif word == "folder":
            self.trees[number].has_data = True
        else:
            path = urllib.parse.unquote_to_bytes(words[2]).decode()
            content = bytes.fromhex(words[3].replace("-", ""))
            return None if self.trees[number].takes(path, content) else "path"
        return None

    # ---- what happens

    def happens(self, event, words):
        if event.deed == "deposit":
            tree = self.trees[event.number]
            if not tree.fault:
                self.seen.setdefault(tree.identity, event.number)
        if event.deed == "start":
            self.starts(event)
        elif event.deed == "stop":
            self.goes_down(event)
        elif self.state[event.site] == "failed":
            self.is_unopened(event)
        elif event.deed == "raw":
            event.outcome, event.said = "dropped", f"dropped {event.site}"
        elif event.deed == "query":
            self.replies(event)
        else:
            self.calls(event)

    def starts(self, event):
        site = self.sites[event.site]
        self.finds(event.site)
        self.state[event.site] = "up"
        event.outcome, event.said = "up", f"up {event.site} {len(site.records)}"

    def finds(self, number):
        """The site's records are all that are in its cell."""
        self.sites[number].records += self.hidden.pop(number, [])

    def goes_down(self, event):
        self.sites[event.site].forget()
        self.last_issued[event.site] = {}
        self.finds(event.site)
        self.state[event.site] = "down"
        event.outcome, event.said = "down", f"down {event.site}"

    def is_unopened(self, event):
        """The device has failed before. A stop stops the site all the same."""
        event.outcome, event.refusal = "unopened", 15
        event.said = f"refused {event.site} 15"
        if event.fate and event.fate[0] == "stop":
            self.goes_down(event)

    def replies(self, event):
        word, bag = self.sites[event.site].query(event.slot)
        event.said = f"reply {event.site} {event.slot} {word}"
        if bag:
            event.said += f" {self.names(event, bag)}"
        event.outcome = f"reply {word}"

    def names(self, event, bag):
        """How the event's line names a bag."""
        event.bag_said = self.seen[bag]
        return bag.hex() if self.has_identities else f"#{event.bag_said}"

    def effect_of(self, event):
        site = self.sites[event.site]
        if event.deed == "deposit":
            tree = self.trees[event.number]
            event.fault = tree.fault
            return site.deposit(event.slot, tree.fault, None if tree.fault else tree.identity)
        if event.deed == "propose":
            return site.propose(event.slot)
        if event.deed == "recover":
            return site.recover(event.slot)
        if event.deed == "ask":
            return site.ask(event.number, event.slot)
        return site.arrives(event.delivered.sender, event.delivered.message)

    def calls(self, event):
        """A call, or an arrival, and what befell it."""
        effect, (kind, call, kept) = self.effect_of(event), event.fate or ("", 0, 0)
        is_kept = effect.record is not None and kept >= effect.record.bytes
        is_in_device = effect.record is not None and call in (1, 2)
        if kind == "fail" and is_in_device:
            self.fails(event, effect.record if is_kept else None)
        elif kind == "stop" and is_in_device:
            self.commits(event, effect.record if is_kept else None)
            self.goes_down(event)
        elif kind == "stop":
            self.commits(event, effect.record)
            self.sends(event, effect.messages[: kept if call == 3 else 0])
            self.goes_down(event)
        else:
            self.is_called(event, effect)

    def fails(self, event, kept):
        self.sites[event.site].forget()
        self.last_issued[event.site] = {}
        self.hidden[event.site] = [kept] if kept else []
        self.state[event.site] = "failed"
        event.outcome, event.refusal = "failed", 13
        event.said = f"refused {event.site} 13"

    def commits(self, event, record):
        if record:
            self.sites[event.site].records.append(record)
            event.made = record

    def sends(self, event, messages):
        for to, message in messages:
            number = len(self.datagrams) + 1
            made = Datagram(number, event.site, to, len(self.events), message)
            self.datagrams.append(made)
            event.sent.append(made)

    def is_called(self, event, effect):
        """The call is done, or refused, and nothing befalls it."""
        if effect.refusal:
            event.outcome, event.refusal = "refused", effect.refusal
            more = f" {event.fault}" if effect.refusal == 10 else ""
            event.said = f"refused {event.site} {effect.refusal}{more}"
            return
        self.commits(event, effect.record)
        self.sends(event, effect.messages)
        if effect.said:
            is_known = effect.said == "known"
            bag = effect.record.bag if is_known else self.trees[event.number].identity
            named = self.names(event, bag)
            event.outcome = effect.said
            event.said = f"{effect.said} {event.site} {event.slot} {named}"
        if event.deed in ("propose", "recover"):
            self.last_issued[event.site][event.slot] = effect.record.ballot
        self.counts(event)

    def counts(self, event):
        """How much weight has promised or voted so by now, as the site has heard."""
        if event.deed != "deliver":
            return
        site, message = self.sites[event.site], event.delivered.message
        slot, ballot = message.slot, message.ballot
        if message.kind == "Promise" and self.last_issued[event.site].get(slot) == ballot:
            heard = site.promises[(slot, ballot)]
            highest = max((it.other for it in heard.values() if it.other), default=None)
            event.count = site.weight(heard), highest
        elif message.kind == "Accepted":
            event.count = site.weight(site.votes[(slot, ballot, message.bag)]), None

    # ---- what is noted

    def note(self, event):
        """The record that is seen since, the tree that is named, the lines, the passage."""
        if event.site in self.sites and not event.outcome.startswith("skip"):
            records = self.sites[event.site].records
            if len(records) > self.recorded[event.site]:
                self.recorded[event.site], event.record = len(records), records[-1]
        event.tree = event.bag_said
        if event.record:
            event.tree = self.tree_of(event.record.bag)
        if event.delivered and event.outcome in ("skip down",):
            self.passages.setdefault(event.number, ("lost", len(self.events)))
        elif event.delivered and self.passages.get(event.number, ("lost", 0))[0] == "lost":
            self.passages[event.number] = "arrived", len(self.events)
        self.lines += [event.said] if event.said else []
        self.lines += [f"sent {it.number} {it.sender} {it.to} {self.hex(it)}" for it in event.sent]
        self.events.append(event)

    def tree_of(self, bag):
        """The tree that had the bag first; 0 where none is named."""
        return self.seen[bag] if bag else 0

    # ---- datagrams

    def hex(self, datagram):
        """The bytes of a datagram."""
        kind, slot, ballot, other, bag = datagram.message
        body = ballot_bytes(ballot) if ballot else b""
        if kind == "Promise":
            body += b"\1" + ballot_bytes(other) + bag if other else b"\0"
        elif kind == "Refused":
            body += ballot_bytes(other)
        elif bag:
            body += bag
        head = b"BP\2" + bytes([KINDS.index(kind) + 1]) + self.federation.to_bytes(8, "big")
        head += bytes([datagram.sender, len(slot.object)]) + slot.object
        return sealed(head + slot.version.to_bytes(4, "big") + body).hex()

    def is_message(self, data):
        """Whether bytes are a message of the federation."""
        if len(data) < 27 or data[:3] != b"BP\2" or sealed(data[:-8]) != data:
            return False
        kind, sender, size = data[3], data[12], data[13]
        name, rest = data[14 : 14 + size], data[14 + size : -8]
        if data[4:12] != self.federation.to_bytes(8, "big") or not 1 <= size <= 200:
            return False
        try:
            name.decode()
        except UnicodeDecodeError:
            return False
        if len(name) < size or len(rest) < 4 or rest[:4] == bytes(4):
            return False
        if (sender == 0) != (kind in CLIENTS) or sender > 63:
            return False
        return is_body(kind, sender, rest[4:])


def ballot_bytes(ballot):
    return ballot.round.to_bytes(4, "big") + bytes([ballot.site])


def sealed(data):
    return data + hashlib.sha256(data).digest()[:8]


def is_ballot(data):
    return len(data) == 5 and data[:4] != bytes(4) and 1 <= data[4] <= 63


def is_body(kind, sender, body):
    """Whether these bytes are the body of a message of this kind."""
    if kind in (1, 3) and body[4:5] != bytes([sender]):
        return False
    if kind == 1:
        return is_ballot(body)
    if kind == 2:
        rest = body[5:]
        has_vote = len(rest) == 70 and rest[0] == 1 and is_ballot(rest[1:6])
        return is_ballot(body[:5]) and (rest == b"\0" or has_vote)
    if kind in (3, 4):
        return is_ballot(body[:5]) and len(body) == 69
    if kind == 5:
        return is_ballot(body[:5]) and is_ballot(body[5:])
    if kind in (6, 17):
        return body == b""
    if kind == 7:
        return len(body) == 64
    if kind == 16:
        return is_path(body)
    return is_reply(kind, body)


def is_path(body):
    size = int.from_bytes(body[:2], "big")
    try:
        body[2:].decode()
    except UnicodeDecodeError:
        return False
    return 1 <= size <= 400 and len(body) == 2 + size


def is_reply(kind, body):
    if kind not in REPLIES or len(body) != 65 or body[0] not in REPLIES[kind]:
        return False
    return body[0] in WITH_BAG[kind] or body[1:] == bytes(64)
