"""Clients of three sites, or of what stands beside them, for `serving`: all wait in one thread, so
that they take as little of the machine as they can."""
import itertools
import os
import select
import time

from messages import DEPOSIT_REPLY, KNOWN, QUERY, QUERY_REPLY, Message, deposit, message
from sites import socket_at

NAMES = itertools.count(1)
# The seconds after which a datagram counts as lost.
LOST = 1


class DatagramClient:
    """A client that sends datagrams from a socket of its own to one port."""

    def __init__(self, port, key):
        self.address, self.key, self.sent = ("127.0.0.1", port), key, b""
        self.socket = socket_at()

    def fileno(self):
        return self.socket.fileno()

    def send(self, asked):
        self.sent = self.key.seal(asked.bytes())
        self.again()

    def again(self):
        self.socket.sendto(self.sent, self.address)

    def receive(self):
        return message(self.key.open(self.socket.recv(2048)))


class SiteClient(DatagramClient):
    """A client of a site. It asks once the site has printed that a bag is known, since a query that
    comes earlier is one more datagram for the site to take in."""

    def __init__(self, site, bag, key):
        super().__init__(site.port, key)
        self.site, self.bag = site, bag

    def begin(self, name):
        self.name, self.is_taken, self.is_known = name, False, False
        self.site.waiting[name] = self
        self.send(deposit(name, 1, self.bag))

    def known(self):
        self.is_known = True
        self.ask()

    def ask(self):
        if self.is_taken and self.is_known:
            self.send(Message(QUERY, 0, self.name, 1))

    def take(self):
        """Takes in a datagram, and says whether the decision ends with it."""
        answer = self.receive()
        if answer.object != self.name:
            return False
        assert answer.body[0] == 0
        if answer.kind == DEPOSIT_REPLY and not self.is_taken:
            self.is_taken = True
            self.ask()
        return answer.kind == QUERY_REPLY


class BareClient(DatagramClient):
    """A client of the bare loop, whose answer to a deposit says that the bag is known."""

    def begin(self, name):
        self.name = name
        self.send(deposit(name, 1, "bag"))

    def take(self):
        answer = self.receive()
        return answer.kind == KNOWN and answer.object == self.name


class SiteLines:
    """The lines that a site prints, and the clients that wait for one of them."""

    def __init__(self, number, port, output):
        self.port, self.output, self.rest, self.waiting = port, output, b"", {}
        self.known = b"known %d " % number

    def fileno(self):
        return self.output.fileno()

    def take(self):
        """Takes in what has been printed. No decision ends with it."""
        *lines, self.rest = (self.rest + os.read(self.fileno(), 1 << 16)).split(b"\n")
        for line in lines:
            if line.startswith(self.known):
                client = self.waiting.pop(line.split(b" ", 3)[2].decode(), None)
                if client:
                    client.known()
        return False


def times_of(system, count, seconds):
    """The milliseconds of each decision that so many clients reach side by side in these seconds,
    once each client has reached one."""
    clients = [system.client(it) for it in range(count)]
    run = Run([*clients, *system.outputs()])
    run.go_on(clients, is_over=lambda: len(run.times) >= count)
    run.times.clear()
    end = time.perf_counter() + seconds
    run.go_on(clients, is_over=lambda: time.perf_counter() >= end)
    return sorted(run.times)


class Run:
    """Clients at work, and the milliseconds of the decisions that they have reached."""

    def __init__(self, watched):
        self.watched, self.poll = {it.fileno(): it for it in watched}, select.epoll()
        self.times, self.began, self.looked = [], {}, time.perf_counter()
        for it in self.watched:
            self.poll.register(it, select.EPOLLIN)

    def go_on(self, clients, is_over):
        """Each of these clients begins a decision, and another one after it, until it is over. All
        that have begun come to their end."""
        for it in clients:
            self.begin(it)
        while self.began:
            for place, _ in self.poll.poll(LOST):
                it = self.watched[place]
                if it.take():
                    self.times.append(1000 * (time.perf_counter() - self.began.pop(it)))
                    if not is_over():
                        self.begin(it)
            self.send_lost()

    def begin(self, client):
        self.began[client] = time.perf_counter()
        client.begin(f"o{next(NAMES)}")

    def send_lost(self):
        """Has clients send again what they sent, where it may have been lost."""
        now = time.perf_counter()
        if now > self.looked + LOST:
            self.looked = now
            for it in [it for it, began in self.began.items() if now > began + LOST]:
                it.again()
