"""The states of a run after each of its events, by the second writer; and a page of steps, read as a
browser reads it. No test of itself."""
import html.parser
import json

from rules import Slot
from story import KINDS, Run


class Watched(Run):
    """A run that notes its state after each event of which there are words, and before the first."""

    def __init__(self, text, has_identities=False):
        self.steps = []
        super().__init__(text, has_identities)

    def note(self, event):
        super().note(event)
        if event.deed != "tree" or event.said:
            self.steps.append((event, self.snapshot()))

    def snapshot(self):
        """What is on record at each site, of each version so far, and how each datagram fares."""
        sites = []
        for number, site in self.sites.items():
            versions = {str(it): self.on_record(site, it) for it in sorted(self.slots)}
            sites.append((self.state[number], len(site.records), versions))
        fates = [self.passages.get(it.number, ("under way", 0))[0] for it in self.datagrams]
        return sites, fates

    def on_record(self, site, slot):
        """The entry of a version, in the page's words."""
        vote, promised = site.vote(slot), site.promised(slot)
        rounds = [it.ballot.round for it in site.of_slot("round", slot)]
        return {
            "deposit": self.tree_of(site.first_bag("deposit", slot)),
            "round": max(rounds, default=0),
            "promised": list(promised) if promised else None,
            "vote": {"ballot": list(vote.ballot), "bag": self.tree_of(vote.bag)} if vote else None,
            "knows": self.tree_of(site.first_bag("known", slot)),
        }


NOTHING = {"deposit": 0, "round": 0, "promised": None, "vote": None, "knows": 0}


def message_of(digits, has_slots, tree_of):
    """What the bytes of a datagram say, by docs/FORMATS.md."""
    data = bytes.fromhex(digits)
    size = data[13]
    slot = Slot(data[14 : 14 + size], int.from_bytes(data[14 + size : 18 + size], "big"))
    kind, body = KINDS[data[3] - 1], data[18 + size : -8]
    parts = [kind, *([str(slot)] if has_slots else [])]
    if kind not in ("Ask", "Known"):
        parts.append(ballot_in(body))
        body = body[5:]
    text, tree = " ".join(parts), tree_of(body[-64:]) if len(body) >= 64 else 0
    if kind == "Promise":
        return text + (f", vote {ballot_in(body[1:])} bag {tree}" if body[0] else ", no vote"), tree
    if kind == "Refused":
        return f"{text}, promised {ballot_in(body)}", 0
    return text + (f", bag {tree}" if tree else ""), tree


def ballot_in(body):
    return f"({int.from_bytes(body[:4], 'big')}, {body[4]})"


class Page(html.parser.HTMLParser):
    """A page: its scripts and styles, its text, and each element with its attributes."""

    EMPTY = ("meta", "input", "!doctype")

    def __init__(self, text):
        super().__init__()
        self.scripts, self.elements, self.open, self.policy = {}, [], [], ""
        self.texts, self.styles = [], []
        self.feed(text)
        self.close()

    def handle_starttag(self, tag, attrs):
        named = dict(attrs)
        self.elements.append((tag, named))
        if tag == "meta" and named.get("http-equiv"):
            self.policy = named["content"]
        if tag == "script":
            self.scripts[named.get("id")] = ""
        if tag not in self.EMPTY:
            self.open.append((tag, named.get("id")))

    def handle_startendtag(self, tag, attrs):
        self.elements.append((tag, dict(attrs)))

    def handle_endtag(self, tag):
        assert self.open and self.open[-1][0] == tag, f"{tag} ends in {self.open}"
        self.open.pop()

    def handle_data(self, data):
        tag = self.open[-1][0] if self.open else ""
        if tag == "script":
            self.scripts[self.open[-1][1]] += data
        elif tag == "style":
            self.styles.append(data)
        elif data.strip() and "svg" not in [it for it, _ in self.open]:
            self.texts.append((tag, self.open[-1][1], data.strip()))

    def run(self):
        """The run in the page's table."""
        return json.loads(self.scripts["run"])
