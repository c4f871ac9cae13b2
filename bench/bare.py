"""Bare loops, for `serving`: the datagrams that sites send and the syncs that they make, and no
more. They check nothing, keep no journal that could be read again, and wait for no idle turn."""
import multiprocessing
import os
import time

from messages import ACCEPT, ACCEPTED, ASK, DEPOSIT, KNOWN, PREPARE, PROMISE
from messages import Message, ballot, message
from sites import SITES, free_ports, socket_at

VALUE = bytes(64)
# The bytes of the record that a site makes, for an object of a few bytes.
BYTES = {DEPOSIT: 73, PREPARE: 14, ACCEPT: 78, KNOWN: 73, "round": 13}


class BareSites:
    """Three processes that decide as three sites do, where nothing is lost."""

    def __init__(self, room):
        self.ports = free_ports(3)
        self.processes = []
        for site in SITES:
            how = {"args": (site, self.ports, room / f"bare-{site}"), "daemon": True}
            self.processes.append(multiprocessing.Process(target=decide, **how))
            self.processes[-1].start()

    def end(self):
        for it in self.processes:
            it.kill()


class BareSite:
    """One of them."""

    def __init__(self, site, ports, path):
        self.site, self.socket = site, socket_at(ports[site - 1])
        self.everyone = [("127.0.0.1", it) for it in ports]
        self.file = os.open(path, os.O_WRONLY | os.O_CREAT | os.O_APPEND)
        self.clients, self.promises, self.votes = {}, {}, {}

    def commit(self, kind):
        os.write(self.file, bytes(BYTES[kind]))
        os.fsync(self.file)

    def send(self, addresses, kind, slot, body):
        datagram = Message(kind, self.site, *slot, body).bytes()
        for it in addresses:
            self.socket.sendto(datagram, it)

    def turn(self):
        """Takes in one datagram."""
        bytes, sender = self.socket.recvfrom(2048)
        asked = message(bytes)
        slot = asked.object, asked.version
        if asked.kind == DEPOSIT:
            # Again, where a datagram was lost.
            self.promises[slot] = self.votes[slot] = 0
            self.clients[slot] = [sender]
            self.commit(DEPOSIT)
            self.commit("round")
            self.send(self.everyone, PREPARE, slot, ballot(1, self.site))
        elif asked.kind == PREPARE:
            self.commit(PREPARE)
            self.send([sender], PROMISE, slot, asked.body + b"\0")
        elif asked.kind == PROMISE:
            if second(self.promises, slot):
                self.send(self.everyone, ACCEPT, slot, asked.body[:5] + VALUE)
        elif asked.kind == ACCEPT:
            self.commit(ACCEPT)
            self.send(self.everyone, ACCEPTED, slot, asked.body)
        elif asked.kind == ACCEPTED:
            if second(self.votes, slot):
                self.commit(KNOWN)
                self.send(self.clients.pop(slot, []), KNOWN, slot, VALUE)
        elif asked.kind == ASK:
            self.send([sender], KNOWN, slot, VALUE)


def count_syncs(path, seconds, counts):
    """Puts the number of records of a vote's length that one process appends and syncs."""
    file, count = os.open(path, os.O_WRONLY | os.O_CREAT | os.O_APPEND), 0
    end = time.monotonic() + seconds
    while time.monotonic() < end:
        os.write(file, bytes(BYTES[ACCEPT]))
        os.fdatasync(file)
        count += 1
    counts.put(count)


def syncs_a_second(room, seconds):
    """How many records a second three processes append and sync, each to its file, and no more."""
    counts = multiprocessing.Queue()
    paths = [room / f"synced-{site}" for site in SITES]
    processes = [
        multiprocessing.Process(target=count_syncs, args=(it, seconds, counts)) for it in paths
    ]
    for it in processes:
        it.start()
    for it in processes:
        it.join()
    return sum(counts.get() for _ in processes) / seconds


def second(counts, slot):
    """Whether this is the second that comes for the slot: two of three are a quorum."""
    counts[slot] = counts.get(slot, 0) + 1
    return counts[slot] == 2


def decide(*which):
    """One of the processes."""
    site = BareSite(*which)
    while True:
        site.turn()
