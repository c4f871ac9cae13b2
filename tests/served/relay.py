"""A relay between sites that loses and repeats datagrams, holds them for a while and cuts sites
off. No test of itself."""
import heapq
import itertools
import random
import selectors
import threading
import time

from sites import socket_at, write_members


class Relay(threading.Thread):
    """Passes datagrams on between sites. Each site has a socket of the relay in place of each other
    site: what it sends there goes on to that one, from the socket that this one has in its place.
    Of what the relay passes on it loses some by chance, or as it is told by `loses`, repeats some,
    and holds each for some seconds."""

    def __init__(self, ports, seed=1, loss=0.0, delay=(0.0, 0.0), repeats=0.0):
        super().__init__(daemon=True)
        self.ports, self.loss, self.delay, self.repeats = ports, loss, delay, repeats
        self.chance, self.held, self.order = random.Random(seed), [], itertools.count()
        self.cut_off, self.is_over = set(), False
        self.loses = lambda site, to, datagram: False
        self.sites, self.sockets = range(1, len(ports) + 1), {}
        self.comes = selectors.DefaultSelector()
        for site, to in itertools.permutations(self.sites, 2):
            made = self.socket()
            made.setblocking(False)
            self.sockets[site, to] = made
            self.comes.register(made, selectors.EVENT_READ, (site, to))
        self.start()

    def socket(self):
        """A new socket of the relay."""
        return socket_at()

    def target(self, site):
        """The address of a site's own socket."""
        return "127.0.0.1", self.ports[site - 1]

    def members(self, room):
        """The members file of each site: it has its own port, and the relay's for the others."""
        files = {}
        for site in self.sites:
            row = [self.place(site, to) for to in self.sites]
            files[site] = write_members(room / f"members-{site}", row)
        return files

    def place(self, site, to):
        """Where a site's file has this one."""
        if site == to:
            return self.ports[to - 1]
        return self.sockets[site, to].getsockname()[1]

    def run(self):
        while not self.is_over:
            now = time.monotonic()
            while self.held and self.held[0][0] <= now:
                self.pass_on(*heapq.heappop(self.held)[2:])
            left = self.held[0][0] - now if self.held else 0.1
            for key, _ in self.comes.select(min(left, 0.1)):
                self.take(key.fileobj, *key.data)

    def take(self, made, site, to):
        try:
            datagram = made.recv(2048)
        except OSError:
            return
        if self.cut_off & {site, to} or self.chance.random() < self.loss:
            return
        if self.loses(site, to, datagram):
            return
        for _ in range(2 if self.chance.random() < self.repeats else 1):
            due = time.monotonic() + self.chance.uniform(*self.delay)
            heapq.heappush(self.held, (due, next(self.order), site, to, datagram))

    def pass_on(self, site, to, datagram):
        self.sockets[to, site].sendto(datagram, self.target(to))
