"""Makes each allocation of `bagpaxos site` fail in turn. The site gets the same datagrams in each
run: they are sent when it waits for the first, and sites 2 and 3 are sockets, of which that of
site 2 promises and votes as it is asked. The site has to go on, with all lines of the whole run but
two at most, or of a call that found no memory; or it ends with status 1 and a word for it. Whatever
it said, in a datagram or a line, is in its cell then, which opens again; and its log has lines of
these alone. A refusal has in the log what was asked for, in words that are made here anew from what
was sent. Imported by `allocations`."""
import collections
import hashlib
import itertools
import subprocess

from failing_allocation import run
from messages import ACCEPT, ACCEPTED, ASK, DEPOSIT, DEPOSITED, DEPOSIT_REPLY, KNOWN, LEARNED, PREPARE
from messages import PROMISE, PROMISED, QUERY, QUERY_REPLY, REFUSED, ROUND, VOTED
from messages import Message, ballot, deposit, message, records
from sites import PROGRAM, free_ports, make_bag, socket_at, write_members

TURNS, TOO_MANY = 40, 5000
STOPPED = ("memory", "open 5", "stopped 3")
PAYLOAD = b"abc"
BAG = hashlib.sha512(f"{hashlib.sha512(PAYLOAD).hexdigest()}  data/a.txt\n".encode()).hexdigest()
VALUE = bytes.fromhex(BAG)
CLIENT = 0
KINDS = {
    PREPARE: "prepare",
    PROMISE: "promise",
    ACCEPT: "accept",
    ACCEPTED: "accepted",
    REFUSED: "refused",
    ASK: "ask",
    KNOWN: "known",
    DEPOSIT: "deposit",
    QUERY: "query",
}
# What comes to the site, and from whom: a client, or a site. The last deposit is the one that it
# proposes when idle.
OLD, NEW = ballot(1, 3), ballot(5, 2)
COMING = [
    (CLIENT, deposit("a", 1, "served-bag")),
    (CLIENT, Message(QUERY, 0, "a", 1)),
    (2, Message(PREPARE, 2, "a", 1, NEW)),
    (3, Message(PREPARE, 3, "a", 1, OLD)),
    (2, Message(ACCEPT, 2, "a", 1, NEW + VALUE)),
    (2, Message(ACCEPTED, 2, "a", 1, NEW + VALUE)),
    (3, Message(ACCEPTED, 3, "a", 1, NEW + VALUE)),
    (CLIENT, Message(QUERY, 0, "a", 1)),
    (3, Message(ASK, 3, "a", 1)),
    (3, Message(KNOWN, 3, "c", 1, VALUE)),
    (2, Message(REFUSED, 2, "c", 1, OLD + NEW)),
    (CLIENT, Message(KNOWN, 9, "c", 1, VALUE)),
    (CLIENT, deposit("b", 1, "served-bag")),
]
WHOLE = [
    f"registered 1 a 1 {BAG}",
    f"reply 1 a 1 pending {BAG}",
    f"known 1 a 1 {BAG}",
    f"reply 1 a 1 known {BAG}",
    f"known 1 c 1 {BAG}",
    "dropped 1",
    f"registered 1 b 1 {BAG}",
    f"known 1 b 1 {BAG}",
]
REPORTS = [it for it in WHOLE if it.startswith(("registered", "known"))]
# What a site says of a call without memory, and of a query that follows one.
OTHERWISE = ["refused 1 14", "reply 1 a 1 nothing", f"reply 1 a 1 pending {BAG}"]


def received(socket):
    """The messages that have come."""
    while True:
        try:
            yield message(socket.recvfrom(2048)[0])
        except BlockingIOError:
            return


def answer_of(asked):
    """What site 2 answers to a proposal."""
    if asked.kind == PREPARE:
        return Message(PROMISE, 2, asked.object, asked.version, asked.body + b"\0")
    if asked.kind == ACCEPT:
        return Message(ACCEPTED, 2, asked.object, asked.version, asked.body)
    return None


def record_of(said):
    """The record in which the site keeps what this message says, if there is one: kind and body."""
    if said.kind == PREPARE:
        return ROUND, said.body[:4]
    if said.kind == PROMISE:
        return PROMISED, said.body[:5]
    if said.kind == ACCEPTED:
        return VOTED, said.body
    if said.kind == KNOWN:
        return LEARNED, said.body
    if said.kind == DEPOSIT_REPLY and said.body[0] == 0:
        return DEPOSITED, said.body[1:]
    if said.kind == QUERY_REPLY and said.body[0] == 0:
        return LEARNED, said.body[1:]
    return None


def in_words(asked):
    """What a message asks for, as the log has it: its kind, the object and the version; then the
    ballot's round and site, the bag or the folder."""
    said = [KINDS[asked.kind], asked.object, str(asked.version)]
    if asked.kind == DEPOSIT:
        return [*said, asked.body[2:].decode()]
    has_ballot = asked.kind in (PREPARE, PROMISE, ACCEPT, ACCEPTED, REFUSED)
    if has_ballot:
        said += [str(int.from_bytes(asked.body[:4], "big")), str(asked.body[4])]
    if asked.kind in (ACCEPT, ACCEPTED):
        said.append(asked.body[5:].hex())
    return [*said, asked.body.hex()] if asked.kind == KNOWN else said


def why_wrong_lines(status, lines, has_failed):
    """What is wrong with the lines and the status."""
    if not has_failed:
        return None if (status, lines) == (0, WHOLE) else "not the whole run"
    stopped = bool(lines) and lines[-1] in STOPPED
    if status != (1 if stopped else 0):
        return "not the status for it"
    others = [it for it in lines[: len(lines) - stopped] if it not in WHOLE + OTHERWISE]
    if others:
        return f"lines of no such run: {others}"
    # One call at most came to nothing, and one that needed it.
    lost = [it for it in WHOLE if it not in lines]
    return f"lines that are lost: {lost}" if len(lost) > 2 and not stopped else None


class Site:
    """The site, and those that send to it."""

    def __init__(self, room):
        make_bag(room / "served-bag", PAYLOAD)
        self.sockets = {it: socket_at() for it in (CLIENT, 2, 3)}
        for it in self.sockets.values():
            it.setblocking(False)
        self.port = free_ports(1)[0]
        ports = [self.port, *(self.sockets[it].getsockname()[1] for it in (2, 3))]
        members = write_members(room / "served-members", ports)
        names = ("served-cell", "served-lines", "served-log")
        self.cell, self.said, self.log = (room / it for it in names)
        self.words = f"site --members {members} --number 1 --cell {self.cell} --log {self.log} "
        self.words += f"--bags {room} --wait 1 --wait-most 1 --turns "
        self.is_first, self.heard = True, []
        # Who has sent what, and the kinds that the log told of.
        self.came, self.told = [], set()

    def sends(self, sender, it):
        self.came.append((self.sockets[sender].getsockname()[1], " ".join(in_words(it))))
        self.sockets[sender].sendto(it.bytes(), ("127.0.0.1", self.port))

    def waits(self):
        """It waits for a datagram: all is sent at once, and later what site 2 answers."""
        if self.is_first:
            self.is_first = False
            for sender, it in COMING:
                self.sends(sender, it)
        self.hear()

    def hear(self):
        """Takes in what the site has sent; site 2 promises and votes for its proposals."""
        for sender, socket in self.sockets.items():
            for it in received(socket):
                self.heard.append(it)
                answer = answer_of(it) if sender == 2 else None
                if answer:
                    self.sends(2, answer)

    def kept(self):
        """The records in the cell."""
        journal = self.cell.read_bytes() if self.cell.exists() else b""
        return records(journal) if len(journal) > 12 else []

    def why_not_kept(self, lines):
        """What the site said and isn't in its cell."""
        said = [(it.object, it.version, *record_of(it)) for it in self.heard if record_of(it)]
        for word, _, name, version, *_ in (it.split() for it in lines if it in REPORTS):
            kind = DEPOSITED if word == "registered" else LEARNED
            said.append((name, int(version), kind, VALUE))
        journal = {(it.object, it.version, it.kind, it.body) for it in self.kept()}
        lost = [it for it in said if it not in journal]
        codes = {it.body[0] for it in self.heard if it.kind == DEPOSIT_REPLY}
        return f"lost {lost}" if lost else None if codes <= {0, 14} else f"replies {codes}"

    def why_wrong_log(self, lines):
        """What is wrong with the log: lines may be left out of it."""
        text = self.log.read_text() if self.log.exists() else ""
        if text and not text.endswith("\n"):
            return "the log ends within a line"
        for line in text.splitlines():
            said = line.split(" ", 2)[2]
            # A folder may find no memory to be read.
            is_request = said.startswith(("refused 1 14 ", "unread 1 27 "))
            if is_request and not self.is_asked(line.split(" ", 2)[1], said.split(" ", 3)[3]):
                return f"a request in the log that nobody has sent: {line}"
            known = " ".join(said.split()[:3]) if said.startswith("refused") else said
            if known not in lines and not said.startswith(("serves ", "unread 1 27 ", "why: ")):
                return f"a line of the log: {line}"
        return None

    def own(self):
        """What it may send to itself for its deposits: a site is one of those that it asks."""
        kinds = (PREPARE, PROMISE, ACCEPT, ACCEPTED)
        for name, round, kind in itertools.product("ab", range(1, TURNS), kinds):
            body = ballot(round, 1) + VALUE
            yield self.port, " ".join(in_words(Message(kind, 1, name, 1, body)))

    def is_asked(self, address, request):
        """Whether this was sent from there. After a folder that can't be read may come a place."""
        for port, words in [*self.came, *self.own()]:
            if address == str(port) and f"{request} ".startswith(f"{words} "):
                self.told.add(words.split()[0])
                return words == request or words.startswith("deposit")
        return False

    def why_not_open(self):
        """What is wrong with the cell, opened again for a turn."""
        before = self.kept()
        words = [PROGRAM, *f"{self.words} 1".split()]
        ran = subprocess.run(words, capture_output=True, text=True, timeout=60)
        if (ran.stdout, ran.returncode) != ("", 0):
            return f"opened again: {ran.stdout!r}, status {ran.returncode}"
        is_kept = self.kept()[: len(before)] == before
        return None if is_kept else "other records after it was opened again"

    def attempt(self, failing):
        """Runs it with that allocation failing: whether one did, its lines, what is wrong."""
        for it in (self.cell, self.log):
            it.unlink(missing_ok=True)
        for it in self.sockets.values():
            list(received(it))
        self.is_first, self.heard, self.came = True, [], []
        ran = run(PROGRAM, f"{self.words} {TURNS}", self.said, failing, waiting=self.waits)
        self.hear()
        lines = ran.said.decode().splitlines()
        why = why_wrong_lines(ran.status, lines, ran.has_failed) or self.why_not_kept(lines)
        why = why or self.why_wrong_log(lines) or self.why_not_open()
        return ran.has_failed, lines, why and f"{why}: status {ran.status}, {lines}"

    def tried(self, failing):
        """The same, twice more at most where lines are missing: a machine that stands still has
        turns idle before their time, of which there are only so many."""
        for _ in range(3):
            has_failed, lines, why = self.attempt(failing)
            if not why or not why.startswith(("not the whole run", "lines that are lost")):
                break
        return has_failed, lines, why


def each_fails(count, room):
    """Tries each allocation in turn, up to the run in which none fails."""
    site, ends, told = Site(room), collections.Counter(), set()
    for failing in range(1, TOO_MANY + 1):
        has_failed, lines, why = site.tried(failing)
        told |= site.told
        ends[lines[-1] if lines and lines[-1] in STOPPED else "went on"] += 1
        count.expect(f"site where allocation {failing} fails", why, None)
        if not has_failed:
            break
    counts = ", ".join(f"{word}: {number}" for word, number in ends.items())
    print(f"allocations of bagpaxos site that failed: {failing - 1}; {counts}", flush=True)
    count.expect("site: a run in which none fails", has_failed, False)
    count.expect("site: each end is reached", sorted(ends), sorted([*STOPPED, "went on"]))
    wanted = {word for kind, word in KINDS.items() if kind != REFUSED}
    count.expect("site: a request of each kind is refused in the log", wanted - told, set())
